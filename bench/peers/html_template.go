// html_template TEMPLATE DATA [SHOWN]: the page by Go's html/template, which reads its template when it runs.
package main

import (
	"html/template"
	"os"
)

func main() {
	page := template.New("page").Funcs(template.FuncMap{"direction": direction})
	source, err := os.ReadFile(os.Args[1])
	check(err)
	_, err = page.Parse(string(source))
	check(err)
	out := newWriter()
	check(page.Execute(out, readItems(os.Args[2], os.Args[len(os.Args)-1])))
	check(out.Flush())
}
