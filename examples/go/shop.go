// The shop in two languages, by the library: reads the templates, the data and the translations in a folder, and writes
// page.en.html and page.he.html into another.
//
//	make -C dist
//	cd examples/go && go build -o shop .
//	./shop ../shop .
package main

import (
	"fmt"
	"io"
	"os"
	"path/filepath"

	"soyc"
)

func stop(what any) {
	fmt.Fprintln(os.Stderr, "shop:", what)
	os.Exit(1)
}

func content(folder, name string) []byte {
	content, err := os.ReadFile(filepath.Join(folder, name))
	if err != nil {
		stop(err)
	}
	return content
}

// compile compiles the shop's templates under a bundle, if one is named.
func compile(from, bundle string) *soyc.Templates {
	var files []soyc.File
	for _, source := range []string{"layout.soy", "list.soy", "product.soy"} {
		files = append(files, soyc.File{Name: source, Content: content(from, source)})
	}
	var translations []byte
	if bundle != "" {
		translations = content(from, bundle)
	}
	templates, err := soyc.Compile(files, translations)
	if err != nil {
		stop(err)
	}
	return templates
}

// write writes the shop's page with these data into a file, piece by piece as it is made.
func write(templates *soyc.Templates, data []byte, path string) {
	page, err := templates.Open("shop.list.main", data)
	if err != nil {
		stop(err)
	}
	defer page.Close()
	file, err := os.Create(path)
	if err != nil {
		stop(err)
	}
	if _, err = io.Copy(file, page); err != nil {
		stop(err)
	}
	if err = file.Close(); err != nil {
		stop(err)
	}
}

func main() {
	if len(os.Args) != 3 {
		fmt.Fprintln(os.Stderr, "usage: shop FROM TO")
		os.Exit(2)
	}
	from, to := os.Args[1], os.Args[2]
	write(compile(from, ""), content(from, "data.json"), filepath.Join(to, "page.en.html"))
	write(compile(from, "he.json"), content(from, "data.he.json"), filepath.Join(to, "page.he.html"))
}
