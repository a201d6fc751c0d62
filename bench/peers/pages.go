// pages ENGINE PAGE DATA COUNT [once] [TEMPLATE]: makes so many pages by html/template or quicktemplate, whose
// templates are read or compiled once, from the same JSON, which is read anew for each page or, with `once`, before;
// prints the microseconds that these took, and those on a processor. For COUNT 0 it writes the page instead.
package main

import (
	"bytes"
	"encoding/json"
	"fmt"
	"html/template"
	"os"
	"strconv"
	"syscall"
	"time"
)

type Product struct {
	Name, Maker, Url string
	Cents, Left      int
	Notes            []string
}

type Shop struct {
	Shop, Lang       string
	Rtl              bool
	Accent, Currency string
	Visitor          *string
	Products         []Product
}

func readShop(content []byte) (shop Shop) {
	check(json.Unmarshal(content, &shop))
	return shop
}

func readList(content []byte) []Item {
	var data struct{ Items []Item }
	check(json.Unmarshal(content, &data))
	return data.Items
}

// maker gives what makes the page of these data, which are read anew unless they are to be read once.
func maker(engine, page string, content []byte, once bool, source string) func(*bytes.Buffer) {
	shop, list := Shop{}, []Item(nil)
	read := func() { shop = readShop(content) }
	if page == "gen" {
		read = func() { list = readList(content) }
	}
	read()
	if once {
		read = func() {}
	}
	if engine == "quicktemplate" && page == "gen" {
		return func(out *bytes.Buffer) { read(); WritePage(out, list) }
	}
	if engine == "quicktemplate" {
		return func(out *bytes.Buffer) { read(); WriteShopPage(out, &shop) }
	}
	text, err := os.ReadFile(source)
	check(err)
	parsed, err := template.New("page").Funcs(template.FuncMap{"direction": direction}).Parse(string(text))
	check(err)
	if page == "gen" {
		return func(out *bytes.Buffer) { read(); check(parsed.Execute(out, list)) }
	}
	return func(out *bytes.Buffer) { read(); check(parsed.Execute(out, &shop)) }
}

func busy() float64 {
	var used syscall.Rusage
	check(syscall.Getrusage(syscall.RUSAGE_SELF, &used))
	return float64(used.Utime.Nano()+used.Stime.Nano()) / 1e3
}

func main() {
	words := os.Args[1:]
	content, err := os.ReadFile(words[2])
	check(err)
	count, err := strconv.Atoi(words[3])
	check(err)
	once := len(words) > 4 && words[4] == "once"
	make := maker(words[0], words[1], content, once, words[len(words)-1])
	var out bytes.Buffer
	make(&out)
	if count == 0 {
		_, err = os.Stdout.Write(out.Bytes())
		check(err)
		return
	}
	from, busyFrom := time.Now(), busy()
	for i := 0; i < count; i++ {
		out.Reset()
		make(&out)
	}
	fmt.Printf("%f %f\n", float64(time.Since(from).Nanoseconds())/1e3, busy()-busyFrom)
}
