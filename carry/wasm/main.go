//go:build js && wasm

// Command wasm is rewind-carry for a web page: it leaves a function rewindCarry(name, text), which gives a report as JSON.
package main

import (
	"syscall/js"

	"rewind/carry/report"
	"rewind/carry/translate"
)

func main() {
	js.Global().Set("rewindCarry", js.FuncOf(func(_ js.Value, given []js.Value) any {
		return string(report.Of(given[0].String(), []byte(given[1].String()), translate.Options{}).JSON())
	}))
	select {}
}
