module soyc/examples/shop

go 1.19

require soyc v0.0.0

replace soyc => ../../bindings/go
