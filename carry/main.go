// Command rewind-carry carries a program of Go over to the language of Rewind.
//
//	rewind-carry FILE.go [-o OUT.go] [--map MAP.json] [--json] [--quiet] [--go VERSION]
//
// It tells of each place what became of it, on standard error, and writes the carried program to OUT.go, or to standard output.
//
// Exit status: 0 where the program was carried over; 1 where something in it is not carried, and then nothing is written; 2 where the
// command line or a file cannot be read or written.
package main

import (
	"errors"
	"flag"
	"fmt"
	"io"
	"os"
	"path/filepath"

	"rewind/carry/report"
	"rewind/carry/source"
)

func main() {
	asked, err := read(os.Args[1:])
	switch {
	case errors.Is(err, flag.ErrHelp):
		fmt.Print(help)
		return
	case err != nil:
		fail(err)
	case asked.tellsVersion:
		fmt.Println("rewind-carry", version)
		return
	}
	status, err := run(asked)
	if err != nil {
		fail(err)
	}
	os.Exit(status)
}

func fail(err error) {
	fmt.Fprintln(os.Stderr, "rewind-carry:", err)
	os.Exit(2)
}

func text(file string) ([]byte, error) {
	var from io.Reader = os.Stdin
	if file != "-" {
		opened, err := os.Open(file)
		if err != nil {
			return nil, err
		}
		defer opened.Close()
		from = opened
	}
	found, err := io.ReadAll(io.LimitReader(from, source.Limit+1))
	if err == nil && len(found) > source.Limit {
		err = fmt.Errorf("%s is longer than %d bytes", file, source.Limit)
	}
	return found, err
}

// run carries a file over, and gives the exit status.
func run(asked settings) (int, error) {
	given, err := text(asked.file)
	if err != nil {
		return 2, err
	}
	found := report.Of(asked.file, given, asked.options)
	if asked.places != "" {
		if err := write(asked.places, found.JSON()); err != nil {
			return 2, err
		}
	}
	if asked.asJSON {
		fmt.Printf("%s", found.JSON())
	} else if !asked.isQuiet || !found.Carried {
		for _, note := range found.Brief {
			fmt.Fprintf(os.Stderr, "%s:%s\n", filepath.Base(asked.file), note)
		}
	}
	if !found.Carried {
		return 1, nil
	}
	if asked.out != "" {
		return 0, write(asked.out, []byte(found.Text))
	}
	if !asked.asJSON {
		fmt.Print(found.Text)
	}
	return 0, nil
}

func write(path string, text []byte) error { return os.WriteFile(path, text, 0o644) }
