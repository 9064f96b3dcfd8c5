// Says of each file whether it is a valid WebAssembly module, by lines as those of wasm-check; the file - is standard input. With --vectors
// operators on vectors are judged like all others, and after --entries it says what each imports and exports. Ends with 0 if all are valid, 1
// if some file is not, and 2 if there is no verdict on some file, or no file. At a terminal it says below a refusal what may help.
package main

import (
	"bufio"
	"errors"
	"fmt"
	"io"
	"os"
	"strconv"
	"strings"
	"unicode/utf8"

	"durskeyl"
)

// hex is a name as the lines of tests/library/entries.c have it.
func hex(name string) string {
	if name == "" {
		return "-"
	}
	return fmt.Sprintf("%x", name)
}

// list writes what a module imports and exports.
func list(out io.Writer, settings *durskeyl.Settings, module []byte) error {
	imports, err := settings.Imports(module)
	if err != nil {
		return err
	}
	exports, err := settings.Exports(module)
	if err != nil {
		return err
	}
	for _, it := range imports {
		fmt.Fprintln(out, "import", hex(it.Module), hex(it.Name), it.Kind, it.Index)
	}
	for _, it := range exports {
		fmt.Fprintln(out, "export", hex(it.Name), it.Kind, it.Index)
	}
	return nil
}

// read gives the bytes of a file.
func read(name string) ([]byte, error) {
	if !utf8.ValidString(name) {
		return nil, errors.New("a name has to be UTF-8")
	}
	if name == "-" {
		if isLost(0) {
			return nil, errors.New("standard input is closed")
		}
		return io.ReadAll(os.Stdin)
	}
	return os.ReadFile(name)
}

// isLost says whether this standard stream was closed. Newer runtimes of Go open /dev/null in its place, to read and write, so that lines would
// be lost, and an input would be empty, without a word.
func isLost(stream int) bool {
	to, err := os.Readlink("/proc/self/fd/" + strconv.Itoa(stream))
	how, _ := os.ReadFile("/proc/self/fdinfo/" + strconv.Itoa(stream))
	for _, line := range strings.Split(string(how), "\n") {
		if strings.HasPrefix(line, "flags:") && strings.HasSuffix(line, "2") {
			return err == nil && to == os.DevNull
		}
	}
	return false
}

// check writes the lines of a file, and gives its status.
func check(out *bufio.Writer, settings *durskeyl.Settings, name string, lists bool) int {
	shown := durskeyl.Shown(name)
	module, err := read(name)
	switch {
	case err != nil:
	case lists:
		err = list(out, settings, module)
	default:
		err = settings.Validate(module)
	}
	var fault *durskeyl.Error
	switch {
	case err == nil:
		if !lists {
			fmt.Fprintf(out, "%s: valid\n", shown)
		}
		return 0
	case errors.As(err, &fault) && fault.IsVerdict():
		fmt.Fprintf(out, "%s: %s\n", shown, fault.Line())
		if how, err := os.Stderr.Stat(); fault.Hint() != "" && err == nil && how.Mode()&os.ModeCharDevice != 0 {
			out.Flush()
			fmt.Fprintln(os.Stderr, "  --vectors judges operators on vectors")
		}
		return 1
	}
	fmt.Fprintf(os.Stderr, "check: %s: %s\n", shown, durskeyl.Shown(err.Error()))
	return 2
}

const usage = "usage: check [--vectors] [--entries] FILE..."

func main() {
	words := os.Args[1:]
	if len(words) > 0 && (words[0] == "--help" || words[0] == "--version") {
		text := usage
		if words[0] == "--version" {
			text = "durskeyl " + durskeyl.VersionText()
		}
		if _, err := fmt.Println(text); err != nil {
			os.Exit(2)
		}
		return
	}
	settings := durskeyl.DefaultSettings()
	if len(words) > 0 && words[0] == "--vectors" {
		words = words[1:]
		settings.Features |= durskeyl.Vectors
	}
	lists := len(words) > 0 && words[0] == "--entries"
	if lists {
		words = words[1:]
	}
	if len(words) == 0 {
		fmt.Fprintln(os.Stderr, usage)
		os.Exit(2)
	}
	if isLost(1) {
		fmt.Fprintln(os.Stderr, "check: cannot write: standard output is closed")
		os.Exit(2)
	}
	out := bufio.NewWriter(os.Stdout)
	status := 0
	for _, name := range words {
		if found := check(out, settings, name, lists); found > status {
			status = found
		}
	}
	if err := out.Flush(); err != nil {
		fmt.Fprintln(os.Stderr, "check: cannot write:", err)
		status = 2
	}
	os.Exit(status)
}
