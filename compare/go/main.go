// What a user might write instead of linking the library: the same night run decided in Go, over records
// that github.com/miekg/dns reads. It searches the records from the front, or finds them in a map.
//
// It makes fewer checks than the library. It has no limits and no refusals but the errors of miekg/dns,
// doesn't test the issuer's name, and reads an issue value only up to its first semicolon.
//
// usage: night FOLDER      where `compare night-files FOLDER` has written the loads
package main

import (
	"fmt"
	"os"
	"path/filepath"
	"sort"
	"strings"
	"time"

	"github.com/miekg/dns"
)

const (
	leastRuns = 11
	leastTime = time.Second
)

// A CAA record, under its number in the book. The owner is in lower case.
type record struct {
	number int
	owner  string
	caa    *dns.CAA
}

// All records of an owner, in the book's order.
type find func(owner string) []record

// The records searched from the front for each owner.
func linear(records []record) find {
	return func(owner string) []record {
		var set []record
		for _, r := range records {
			if r.owner == owner {
				set = append(set, r)
			}
		}
		return set
	}
}

// The records in a map by owner, made for each call.
func mapped(records []record) find {
	sets := make(map[string][]record)
	for _, r := range records {
		sets[r.owner] = append(sets[r.owner], r)
	}
	return func(owner string) []record { return sets[owner] }
}

func judge(request, issuer, book []byte, way func([]record) find) (string, error) {
	names, err := readNames(request)
	if err != nil {
		return "", err
	}
	records, err := readBook(book)
	if err != nil {
		return "", err
	}
	find := way(records)
	for number, name := range names {
		wildcard := strings.HasPrefix(name, "*.")
		set, up := climb(find, strings.TrimPrefix(name, "*."))
		if r := first(set, isUnknownCritical); r != nil {
			return fmt.Sprintf("verdict 20 name %d record %d up %d", number, r.number, up), nil
		}
		tag := "issue"
		if wildcard && first(set, hasTag("issuewild")) != nil {
			tag = "issuewild"
		}
		governing := first(set, hasTag(tag))
		grants := func(r record) bool { return hasTag(tag)(r) && isGrantee(r.caa.Value, string(issuer)) }
		if governing != nil && first(set, grants) == nil {
			return fmt.Sprintf("verdict 21 name %d record %d up %d", number, governing.number, up), nil
		}
	}
	return "verdict 0", nil
}

// The records of the nearest name that owns any, and how many labels were taken off to reach it.
func climb(find find, name string) ([]record, int) {
	up := 0
	for at, end := 0, false; !end; at, end = dns.NextLabel(name, at) {
		if set := find(name[at:]); len(set) > 0 {
			return set, up
		}
		up++
	}
	return nil, up
}

func first(set []record, is func(record) bool) *record {
	for i := range set {
		if is(set[i]) {
			return &set[i]
		}
	}
	return nil
}

func hasTag(tag string) func(record) bool {
	return func(r record) bool { return strings.EqualFold(r.caa.Tag, tag) }
}

func isUnknownCritical(r record) bool {
	known := hasTag("issue")(r) || hasTag("issuewild")(r) || hasTag("iodef")(r)
	return r.caa.Flag&128 != 0 && !known
}

func isGrantee(value, issuer string) bool {
	name, _, _ := strings.Cut(value, ";")
	return strings.EqualFold(strings.Trim(name, " \t"), issuer)
}

func readNames(request []byte) ([]string, error) {
	var names []string
	for at := 0; at < len(request); {
		name, next, err := dns.UnpackDomainName(request, at)
		if err != nil {
			return nil, err
		}
		names = append(names, dns.CanonicalName(name))
		at = next
	}
	return names, nil
}

func readBook(book []byte) ([]record, error) {
	var records []record
	number := 0
	for at := 0; at < len(book); number++ {
		rr, next, err := dns.UnpackRR(book, at)
		if err != nil {
			return nil, err
		}
		if caa, is := rr.(*dns.CAA); is && caa.Hdr.Class == dns.ClassINET {
			records = append(records, record{number, dns.CanonicalName(caa.Hdr.Name), caa})
		}
		at = next
	}
	return records, nil
}

var ways = []func([]record) find{linear, mapped}

// The three inputs of a load, and what the independent implementation says of them.
type load struct {
	title                 string
	request, issuer, book []byte
	verdict               string
	otherIssuer           []byte
	otherVerdicts         []string // for the other issuer, of each name by itself
}

func readLoad(folder string) (l load, err error) {
	file := func(name string) (octets []byte) {
		if err == nil {
			octets, err = os.ReadFile(filepath.Join(folder, name))
		}
		return octets
	}
	l.title, l.verdict = string(file("title.txt")), string(file("verdict.txt"))
	l.request, l.issuer, l.book = file("request.bin"), file("issuer.txt"), file("book.bin")
	l.otherIssuer = file("other-issuer.txt")
	l.otherVerdicts = strings.Split(string(file("other-verdicts.txt")), "\n")
	return l, err
}

// Whether each way gives the verdict of the load, and of each name by itself for the other issuer.
func compare(l load) error {
	for _, way := range ways {
		if err := gives(l.verdict, l.request, l.issuer, l.book, way); err != nil {
			return err
		}
		at := 0
		for _, wanted := range l.otherVerdicts {
			_, next, err := dns.UnpackDomainName(l.request, at)
			if err != nil {
				return err
			}
			if err := gives(wanted, l.request[at:next], l.otherIssuer, l.book, way); err != nil {
				return err
			}
			at = next
		}
		if at != len(l.request) {
			return fmt.Errorf("verdicts for %d of %d octets", at, len(l.request))
		}
	}
	return nil
}

func gives(wanted string, request, issuer, book []byte, way func([]record) find) error {
	verdict, err := judge(request, issuer, book, way)
	if err == nil && verdict != wanted {
		err = fmt.Errorf("%s, wanted %s", verdict, wanted)
	}
	return err
}

// The medians in microseconds, and the least times in brackets. The ways take turns.
func measure(l load) []string {
	times := make([][]time.Duration, len(ways))
	start := time.Now()
	for len(times[0]) < leastRuns || time.Since(start) < leastTime*time.Duration(len(ways)) {
		for i, way := range ways {
			from := time.Now()
			judge(l.request, l.issuer, l.book, way)
			times[i] = append(times[i], time.Since(from))
		}
	}
	var told []string
	for _, t := range times {
		sort.Slice(t, func(i, j int) bool { return t[i] < t[j] })
		told = append(told, fmt.Sprintf("%d (%d)", t[len(t)/2].Microseconds(), t[0].Microseconds()))
	}
	return told
}

func run(folder string) error {
	folders, err := filepath.Glob(filepath.Join(folder, "*"))
	if err == nil && len(folders) == 0 {
		err = fmt.Errorf("no loads in %s", folder)
	}
	if err != nil {
		return err
	}
	var loads []load
	for _, folder := range folders {
		l, err := readLoad(folder)
		if err == nil {
			err = compare(l)
		}
		if err != nil {
			return fmt.Errorf("%s: %w", folder, err)
		}
		loads = append(loads, l)
	}
	fmt.Println("| Go with miekg/dns | From the front, µs | By a map, µs |\n|---|---|---|")
	for _, l := range loads {
		fmt.Printf("| %s | %s |\n", l.title, strings.Join(measure(l), " | "))
	}
	return nil
}

func main() {
	if len(os.Args) != 2 {
		fmt.Fprintln(os.Stderr, "usage: night FOLDER")
		os.Exit(2)
	}
	if err := run(os.Args[1]); err != nil {
		fmt.Fprintln(os.Stderr, "night:", err)
		os.Exit(1)
	}
}
