package soyc

import (
	"bytes"
	"strings"
	"testing"
)

const source = "{namespace t}\n{template m}\n{@param x: string}\n<b>{$x}</b>\n{/template}\n"

func TestRun(t *testing.T) {
	long := strings.Repeat("a", 3*firstRoom)
	for _, row := range []struct {
		name     string
		words    []string
		files    []File
		status   uint32
		out, err string
	}{
		{"a page", []string{"render", "t.m", "d", "-", "t.soy"},
			[]File{{"d", []byte(`{"x":"<"}`)}, {"t.soy", []byte(source)}}, 0,
			`<b><span dir="ltr">&lt;</span></b>`, ""},
		{"a page longer than the first room", []string{"render", "t.m", "d", "-", "t.soy"},
			[]File{{"d", []byte(`{"x":"` + long + `"}`)}, {"t.soy", []byte(source)}}, 0,
			`<b><span dir="ltr">` + long + `</span></b>`, ""},
		{"a file that lacks", []string{"check", "-", "t.soy"}, nil, 3, "", "t.soy: read fault\n"},
		{"a fault", []string{"check", "-", "t.soy"}, []File{{"t.soy", []byte("{namespace t}\n{$x}\n")}}, 5, "",
			"t.soy:2:2: 4 Syntax\n"},
		{"a word that isn't UTF-8", []string{"\xff"}, nil, 7, "", ""},
	} {
		made := Run(row.words, row.files)
		if made.Status != row.status || !bytes.Equal(made.Out, []byte(row.out)) || string(made.Err) != row.err {
			t.Errorf("%s: %d %.100q %q", row.name, made.Status, made.Out, made.Err)
		}
	}
}
