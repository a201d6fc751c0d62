// quicktemplate DATA [SHOWN]: the page by quicktemplate, whose templates are compiled to Go.
package main

import "os"

func main() {
	items := readItems(os.Args[1], os.Args[len(os.Args)-1])
	out := newWriter()
	WritePage(out, items)
	check(out.Flush())
}
