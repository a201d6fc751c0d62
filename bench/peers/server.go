// server ADDRESS DATA TEMPLATE: the page of `gen` by Go's html/template, over HTTP; the data are read anew for each
// page.
package main

import (
	"html/template"
	"net/http"
	"os"
)

func main() {
	source, err := os.ReadFile(os.Args[3])
	check(err)
	page, err := template.New("page").Funcs(template.FuncMap{"direction": direction}).Parse(string(source))
	check(err)
	http.HandleFunc("/", func(out http.ResponseWriter, _ *http.Request) {
		out.Header().Set("Content-Type", "text/html; charset=utf-8")
		if page.Execute(out, readItems(os.Args[2], "all")) != nil {
			return
		}
	})
	check(http.ListenAndServe(os.Args[1], nil))
}
