package soyc

import (
	"errors"
	"io"
	"os"
	"path/filepath"
	"strings"
	"sync"
	"testing"
)

const examples = "../../examples/"

func read(t *testing.T, name string) []byte {
	t.Helper()
	content, err := os.ReadFile(filepath.Join(examples, name))
	if err != nil {
		t.Fatal(err)
	}
	return content
}

func shop(t *testing.T, bundle []byte) *Templates {
	t.Helper()
	var files []File
	for _, name := range []string{"layout.soy", "list.soy", "product.soy"} {
		files = append(files, File{name, read(t, "shop/"+name)})
	}
	templates, err := Compile(files, bundle)
	if err != nil {
		t.Fatal(err)
	}
	return templates
}

func page(t *testing.T, templates *Templates, name string, data []byte) string {
	t.Helper()
	open, err := templates.Open(name, data)
	if err != nil {
		t.Fatal(err)
	}
	defer open.Close()
	all, err := io.ReadAll(open)
	if err != nil {
		t.Fatal(err)
	}
	return string(all)
}

func TestShop(t *testing.T) {
	english, hebrew := shop(t, nil), shop(t, read(t, "shop/he.json"))
	data, dataHe := read(t, "shop/data.json"), read(t, "shop/data.he.json")
	var all sync.WaitGroup
	for i := 0; i < 4; i++ {
		all.Add(1)
		go func() {
			defer all.Done()
			for i := 0; i < 5; i++ {
				if page(t, english, "shop.list.main", data) != string(read(t, "shop/page.en.html")) {
					t.Error("another page in English")
				}
				if page(t, hebrew, "shop.list.main", dataHe) != string(read(t, "shop/page.he.html")) {
					t.Error("another page in Hebrew")
				}
			}
		}()
	}
	all.Wait()
}

func TestClosed(t *testing.T) {
	templates, err := Compile([]File{{"t.soy", []byte(source)}}, nil)
	if err != nil {
		t.Fatal(err)
	}
	open, err := templates.Open("t.m", []byte(`{"x":"a"}`))
	if err != nil {
		t.Fatal(err)
	}
	templates.Close()
	templates.Close()
	room := make([]byte, 3)
	if n, err := open.Read(room); n != 3 || err != nil || string(room) != "<b>" {
		t.Errorf("a page of templates that are closed: %q, %v", room[:n], err)
	}
	open.Close()
	open.Close()
	var fault *Error
	if _, err = open.Read(room); !errors.As(err, &fault) || fault.Status != Closed {
		t.Errorf("a page that is closed: %v", err)
	}
	if _, err = templates.Open("t.m", nil); !errors.As(err, &fault) || fault.Status != Closed {
		t.Errorf("templates that are closed: %v", err)
	}
}

func TestFaults(t *testing.T) {
	long, large := strings.Repeat("n", 5000), strings.Repeat(" ", 4<<20+1)
	deep := "{namespace t}\n{template m}\na{call m /}\n{/template}\n"
	for _, row := range []struct {
		name, file, source, bundle, template, data string
		want                                       Error
	}{
		{"in a file", "t.soy", "{namespace t}\n{template m}\n{$y}\n{/template}\n", "", "", "",
			Error{Status: Refused, Code: 7, Word: "Unknown", Line: "t.soy:3:2: 7 Unknown",
				File: "t.soy", Row: 3, Column: 2, Detail: "y"}},
		{"a line longer than its room", long, "{namespace t}\n{template m}\n{$y}\n{/template}\n", "", "", "",
			Error{Status: Refused, Code: 7, Word: "Unknown", Line: long + ":3:2: 7 Unknown",
				File: long, Row: 3, Column: 2, Detail: "y"}},
		{"of the name", "t.soy", source, "", "t.zz", "{}",
			Error{Status: Refused, Code: 29, Word: "Entry", Line: "t.zz: 29 Entry"}},
		{"of the data", "t.soy", source, "", "t.m", `{"x":1}`,
			Error{Status: Refused, Code: 28, Word: "DataType", Line: "data:/x: 28 DataType",
				InData: true, HasPointer: true, Pointer: "/x"}},
		{"of all the data", "t.soy", source, "", "t.m", "[",
			Error{Status: Refused, Code: 27, Word: "Data", Line: "data:: 27 Data", InData: true, HasPointer: true}},
		{"data that are too large", "t.soy", source, "", "t.m", large,
			Error{Status: Refused, Code: 2, Word: "TooLarge", Line: "data:1:1: 2 TooLarge", InData: true}},
		{"of all the translations", "t.soy", source, "1", "", "",
			Error{Status: Refused, Code: 21, Word: "Bundle", Line: "bundle.json:: 21 Bundle",
				InBundle: true, HasPointer: true}},
		{"translations that are too large", "t.soy", source, large, "", "",
			Error{Status: Refused, Code: 2, Word: "TooLarge", Line: "bundle.json:1:1: 2 TooLarge", InBundle: true}},
		{"too deep", "t.soy", deep, "", "t.m", "{}",
			Error{Status: TooDeep, Code: 31, Word: "TooDeep", Line: "t.soy:3:2: 31 TooDeep",
				File: "t.soy", Row: 3, Column: 2}},
		{"a name that isn't UTF-8", "\xff", source, "", "", "", Error{Status: Malformed}},
	} {
		var bundle, made []byte
		if row.bundle != "" {
			bundle = []byte(row.bundle)
		}
		templates, err := Compile([]File{{row.file, []byte(row.source)}}, bundle)
		if err == nil {
			var open *Page
			if open, err = templates.Open(row.template, []byte(row.data)); err == nil {
				made, err = io.ReadAll(open)
			}
		}
		var fault *Error
		if !errors.As(err, &fault) || *fault != row.want {
			t.Errorf("%s: %+v", row.name, fault)
		}
		if row.want.Status == TooDeep && string(made) != strings.Repeat("a", 101) {
			t.Errorf("%s: after %q", row.name, made)
		}
	}
}

func TestBundleFault(t *testing.T) {
	_, err := Compile([]File{{"t.soy", []byte(source)}}, []byte(`{"dir":"up"}`))
	var fault *Error
	if !errors.As(err, &fault) || !fault.InBundle || fault.Code < 21 || fault.Code > 25 {
		t.Errorf("%+v", fault)
	}
}
