package main

import (
	"errors"
	"flag"
	"fmt"
	"io"
	"strconv"
	"strings"

	"rewind/carry/translate"
)

// version is that of Rewind; `make carry` sets it.
var version = "of no version"

const usage = "usage: rewind-carry FILE.go [-o OUT.go] [--map MAP.json] [--json] [--quiet] [--go VERSION]"

const help = usage + `

Carries a program of Go over to the language of Rewind, and tells of each place
what became of it. FILE.go may be - for standard input.

options:
  -h, --help      show this help message and exit
  -o OUT.go       write the carried program to a file, and not to standard output
  --map MAP.json  write what was told, and where each line comes from, to a file
  --json          write what --map writes to standard output
  --quiet         tell only what is not carried
  --go VERSION    the version of Go that is meant (1.22)
  --version       print the version and exit

Exit status: 0 where the program was carried over, 1 where something in it is
not carried, and 2 where the command line or a file cannot be read or written.
`

type settings struct {
	file, out, places             string
	asJSON, isQuiet, tellsVersion bool
	options                       translate.Options
}

// optionsOf says which options there are, and where each is kept.
func optionsOf(asked *settings, goVersion *string) *flag.FlagSet {
	flags := flag.NewFlagSet("rewind-carry", flag.ContinueOnError)
	flags.SetOutput(io.Discard)
	flags.StringVar(&asked.out, "o", "", "")
	flags.StringVar(&asked.places, "map", "", "")
	flags.BoolVar(&asked.asJSON, "json", false, "")
	flags.BoolVar(&asked.isQuiet, "quiet", false, "")
	flags.BoolVar(&asked.tellsVersion, "version", false, "")
	flags.StringVar(goVersion, "go", "1.22", "")
	return flags
}

// read reads the command line; the file may stand before or behind the options. Where help is asked for, the error is flag.ErrHelp.
func read(words []string) (settings, error) {
	var asked settings
	var goVersion string
	flags := optionsOf(&asked, &goVersion)
	for len(words) > 0 {
		if err := flags.Parse(words); errors.Is(err, flag.ErrHelp) {
			return asked, err
		} else if err != nil {
			return asked, fmt.Errorf("%w; %s", err, usage)
		}
		words = flags.Args()
		if len(words) > 0 {
			if asked.file != "" {
				return asked, fmt.Errorf("one file at a time, and not %s, too", words[0])
			}
			asked.file, words = words[0], words[1:]
		}
	}
	if asked.file == "" && !asked.tellsVersion {
		return asked, errors.New(usage)
	}
	minor, err := strconv.Atoi(strings.TrimPrefix(goVersion, "1."))
	if err != nil {
		return asked, fmt.Errorf("--go takes a version as 1.21, and not %s", goVersion)
	}
	asked.options.SharesLoops = minor < 22
	return asked, nil
}
