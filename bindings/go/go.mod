module soyc

go 1.19
