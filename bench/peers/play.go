// The interpreter of objects.hpp in Go, over Go's own collector: the same text, for scripts whose objects have four fields, as all of the bench's.
package main

import (
	"bufio"
	"fmt"
	"io"
	"os"
	"runtime"
	"sort"
	"strconv"
	"strings"
	"sync"
)

// An object: its section, its number there, its value, and its fields.
type object struct {
	section, number, value uint32
	reached                bool
	fields                 [4]*object
}

// What a command does, so that none is told by its word while it is played.
const opNew, opLet, opNil, opSet, opGet, opCat, opPut, opSay, opSum, opCollect = 0, 1, 2, 3, 4, 5, 6, 7, 8, 9

var ops = map[string]int{"new": opNew, "let": opLet, "nil": opNil, "set": opSet, "get": opGet, "cat": opCat, "put": opPut, "say": opSay, "sum": opSum,
	"collect": opCollect}

// A command: what it does, variables v and w, field i, a value or a limit n, and its label.
type command struct {
	op, v, w, i, n int
	label          string
}

type block struct {
	times int
	body  []command
}

type section struct {
	names map[string]int
	parts [][]block
}

type player struct {
	variables [32]*object
	made      uint32
	said      []string
	dropped   int
}

type script struct {
	seasons  int
	sections []section
}

func newSection() section { return section{names: map[string]int{}, parts: [][]block{{}}} }

func (s *section) variable(name string) int {
	at, known := s.names[name]
	if !known {
		at = len(s.names)
		s.names[name] = at
	}
	return at
}

func number(word string) int {
	n, err := strconv.Atoi(word)
	if err != nil {
		panic(err)
	}
	return n
}

func (s *script) command(in *section, words []string) command {
	op, known := ops[words[0]]
	if !known {
		panic("not a command: " + words[0])
	}
	c := command{op: op}
	switch words[0] {
	case "new", "put":
		c.v, c.n = in.variable(words[1]), number(words[2])
	case "let":
		c.v, c.w = in.variable(words[1]), in.variable(words[2])
	case "nil":
		c.v = in.variable(words[1])
	case "set":
		c.v, c.i, c.w = in.variable(words[1]), number(words[2]), in.variable(words[3])
	case "get":
		c.v, c.w, c.i = in.variable(words[1]), in.variable(words[2]), number(words[3])
	case "cat":
		c.v, c.w = in.variable(words[1]), s.sections[0].variable(words[2])
	case "say":
		c.label, c.v = words[1], in.variable(words[2])
	case "sum":
		c.label, c.v, c.i, c.n = words[1], in.variable(words[2]), number(words[3]), number(words[4])
	}
	return c
}

func (s *script) line(words []string) {
	in := &s.sections[len(s.sections)-1]
	part := &in.parts[len(in.parts)-1]
	switch words[0] {
	case "gcscript", "catalogue":
	case "fields":
		if number(words[1]) != 4 {
			panic("objects have four fields here")
		}
	case "warehouse":
		s.sections = append(s.sections, newSection())
	case "season":
		in.parts = append(in.parts, []block{})
	case "repeat":
		*part = append(*part, block{times: number(words[1])})
	case "end":
		*part = append(*part, block{times: 1})
	default:
		if len(*part) == 0 {
			*part = append(*part, block{times: 1})
		}
		last := &(*part)[len(*part)-1]
		last.body = append(last.body, s.command(in, words))
	}
}

func read(source string) *script {
	s := &script{sections: []section{newSection()}}
	for _, line := range strings.Split(source, "\n") {
		words := strings.Fields(line)
		if len(words) > 0 && words[0][0] != '#' {
			s.line(words)
		}
	}
	for _, in := range s.sections {
		if len(in.parts) > s.seasons {
			s.seasons = len(in.parts)
		}
	}
	return s
}

type play struct {
	script  *script
	players []player
}

func (p *play) own(k int, at *player, v int) *object {
	o := at.variables[v]
	if o != nil && int(o.section) != k {
		at.dropped++
		return nil
	}
	return o
}

func walk(c *command, o *object) string {
	count, total := 0, uint64(0)
	for ; o != nil && count < c.n; count++ {
		total += uint64(o.value)
		o = o.fields[c.i]
	}
	return fmt.Sprintf("%s %d %d", c.label, count, total)
}

func (p *play) do(k int, at *player, c *command) {
	switch c.op {
	case opNew:
		at.variables[c.v] = &object{section: uint32(k), number: at.made, value: uint32(c.n)}
		at.made++
	case opLet:
		at.variables[c.v] = at.variables[c.w]
	case opNil:
		at.variables[c.v] = nil
	case opSet:
		if o := p.own(k, at, c.v); o != nil {
			o.fields[c.i] = at.variables[c.w]
		}
	case opPut:
		if o := p.own(k, at, c.v); o != nil {
			o.value = uint32(c.n)
		}
	case opGet:
		if o := at.variables[c.w]; o != nil {
			at.variables[c.v] = o.fields[c.i]
		} else {
			at.variables[c.v] = nil
		}
	case opCat:
		at.variables[c.v] = p.players[0].variables[c.w]
	case opSay:
		text := c.label + " nil"
		if o := at.variables[c.v]; o != nil {
			text = fmt.Sprintf("%s %d", c.label, o.value)
		}
		at.said = append(at.said, text)
	case opSum:
		at.said = append(at.said, walk(c, at.variables[c.v]))
	case opCollect:
		runtime.GC()
	}
}

func (p *play) part(k, season int) {
	parts := p.script.sections[k].parts
	if season >= len(parts) {
		return
	}
	for b := range parts[season] {
		for time := 0; time < parts[season][b].times; time++ {
			body := parts[season][b].body
			for c := range body {
				p.do(k, &p.players[k], &body[c])
			}
		}
	}
}

func (p *play) season(season, workers int) {
	p.part(0, season)
	var all sync.WaitGroup
	for w := 0; w < workers; w++ {
		all.Add(1)
		go func(w int) {
			for k := w + 1; k < len(p.players); k += workers {
				p.part(k, season)
			}
			all.Done()
		}(w)
	}
	all.Wait()
}

func (p *play) survivors() []*object {
	var found []*object
	reach := func(o *object) {
		if o != nil && !o.reached {
			o.reached = true
			found = append(found, o)
		}
	}
	for k := range p.players {
		for _, o := range p.players[k].variables {
			reach(o)
		}
	}
	for at := 0; at < len(found); at++ {
		for _, o := range found[at].fields {
			reach(o)
		}
	}
	sort.Slice(found, func(a, b int) bool {
		x, y := found[a], found[b]
		return x.section < y.section || x.section == y.section && x.number < y.number
	})
	return found
}

func (p *play) write() {
	out := bufio.NewWriter(os.Stdout)
	defer out.Flush()
	for k := 1; k < len(p.players); k++ {
		fmt.Fprintf(out, "warehouse %d\n", k)
		for _, line := range p.players[k].said {
			fmt.Fprintln(out, line)
		}
		fmt.Fprintf(out, "dropped %d\n", p.players[k].dropped)
	}
	found := p.survivors()
	fmt.Fprintf(out, "survivors %d\n", len(found))
	for _, o := range found {
		fmt.Fprintf(out, "%d %d %d\n", o.section, o.number, o.value)
	}
}

func main() {
	workers := 4
	for k, word := range os.Args {
		if word == "--workers" && k+1 < len(os.Args) {
			workers = number(os.Args[k+1])
		}
	}
	source, err := io.ReadAll(os.Stdin)
	if err != nil {
		panic(err)
	}
	s := read(string(source))
	p := &play{script: s, players: make([]player, len(s.sections))}
	for season := 0; season < s.seasons; season++ {
		p.season(season, workers)
	}
	p.write()
}
