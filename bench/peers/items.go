// The data of both pages in Go, and the direction of a text by the rules of docs/bidi.md, for the workload's letters.
package main

import (
	"bufio"
	"encoding/json"
	"os"
	"strconv"
	"strings"
	"unicode"
)

type Item struct {
	Link string `json:"link"`
	N    int    `json:"n"`
	Text string `json:"text"`
	Who  string `json:"who"`
}

// readItems gives the items of a file, or the first of them, as many as the last word says.
func readItems(name string, last string) []Item {
	var data struct {
		Items []Item `json:"items"`
	}
	content, err := os.ReadFile(name)
	check(err)
	check(json.Unmarshal(content, &data))
	shown, err := strconv.Atoi(last)
	if err == nil && shown < len(data.Items) {
		return data.Items[:shown]
	}
	return data.Items
}

func newWriter() *bufio.Writer {
	return bufio.NewWriterSize(os.Stdout, 1<<16)
}

func check(err error) {
	if err != nil {
		panic(err)
	}
}

func firstStrong(word string) rune {
	for _, c := range word {
		switch {
		case c >= 0x590 && c <= 0x8ff && unicode.IsLetter(c):
			return 'R'
		case unicode.IsLetter(c):
			return 'L'
		}
	}
	return 0
}

func direction(text string) string {
	right, total, weak := 0, 0, false
	for _, word := range strings.Fields(text) {
		strong := firstStrong(word)
		switch {
		case strong == 'R':
			right++
			total++
		case strings.HasPrefix(word, "http://") || strings.HasPrefix(word, "https://"):
			weak = true
		case strong == 'L':
			total++
		case strings.ContainsAny(word, "0123456789"):
			weak = true
		}
	}
	if 5*right <= 2*total && (total > 0 || weak) {
		return "ltr"
	}
	return "rtl"
}
