// A queue and a map that threads share, in Go: the works `queue` and `map` of crates/bench_heaps, and the same exchanges. go queue|map THREADS ROUNDS MEGABYTES 0|1. The
// collector runs if the heap comes to that size, with 1 also if it has doubled, and has as many processors as there are threads.
package main

import (
	"fmt"
	"os"
	"runtime"
	"runtime/debug"
	"strconv"
	"sync"
	"sync/atomic"
)

// What an object of ours has besides its two references: its value, and its identity.
type node struct {
	next            atomic.Pointer[node]
	item            *node
	value, identity uint64
}

func newNode(value uint64, next, item *node) *node {
	made := &node{value: value, item: item}
	made.next.Store(next)
	return made
}

type tally struct {
	count, sum uint64
	_          [6]uint64
}

func (t *tally) add(number uint64) {
	t.count++
	t.sum += number
}

// The queue of Michael and Scott (PODC 1996).
type queue struct {
	first, last atomic.Pointer[node]
}

func (q *queue) put(number uint64) {
	made := newNode(number, nil, nil)
	for {
		tail := q.last.Load()
		behind := tail.next.Load()
		if behind != nil {
			q.last.CompareAndSwap(tail, behind)
		} else if tail.next.CompareAndSwap(nil, made) {
			q.last.CompareAndSwap(tail, made)
			return
		}
	}
}

func (q *queue) take() (uint64, bool) {
	for {
		head, tail := q.first.Load(), q.last.Load()
		behind := head.next.Load()
		if head == tail {
			if behind == nil {
				return 0, false
			}
			q.last.CompareAndSwap(tail, behind)
		} else if q.first.CompareAndSwap(head, behind) {
			number := behind.value
			behind.item = nil
			return number, true
		}
	}
}

// A map whose every change is one exchange of a chain, which is made anew up to the entry that changes.
type row struct {
	chains [16]atomic.Pointer[node]
}

type chained struct {
	rows [16]*row
}

func (m *chained) chainOf(key uint32) *atomic.Pointer[node] {
	hash := key * 2654435761 >> 16
	return &m.rows[hash/16%16].chains[hash%16]
}

func seek(entry *node, key uint32) *node {
	for entry != nil && entry.value != uint64(key) {
		entry = entry.next.Load()
	}
	return entry
}

func (m *chained) find(key uint32) *node {
	entry := seek(m.chainOf(key).Load(), key)
	if entry == nil {
		return nil
	}
	return entry.item
}

func (m *chained) change(key uint32, kept *node) {
	chain := m.chainOf(key)
	for {
		found := chain.Load()
		entry := seek(found, key)
		made := found
		if entry != nil {
			made = entry.next.Load()
			for before := found; before != entry; before = before.next.Load() {
				made = newNode(before.value, made, before.item)
			}
		}
		if kept != nil {
			made = newNode(uint64(key), made, kept)
		}
		if chain.CompareAndSwap(found, made) {
			return
		}
	}
}

const keys = 1024

func pairs(q *queue, rounds uint32, t *tally) {
	for n := uint32(0); n < rounds; n++ {
		q.put(uint64(n))
		if number, some := q.take(); some {
			t.add(number)
		}
	}
}

func mix(m *chained, threads, rounds, k uint32, t *tally) {
	drawn := k
	for n := uint32(0); n < rounds; n++ {
		drawn = drawn*1664525 + 1013904223
		key := (drawn>>12)%(keys/threads)*threads + k
		switch (drawn >> 4) % 10 {
		case 0:
			m.change(key, newNode(uint64(drawn), nil, nil))
		case 1:
			m.change(key, nil)
		default:
			if found := m.find(key); found != nil {
				t.add(found.value)
			}
		}
	}
}

func number(word string) uint32 {
	n, _ := strconv.Atoi(word)
	return uint32(n)
}

func main() {
	isQueue := os.Args[1] == "queue"
	threads, rounds := number(os.Args[2]), number(os.Args[3])
	runtime.GOMAXPROCS(int(threads))
	if os.Args[5] == "0" {
		debug.SetGCPercent(-1)
	}
	debug.SetMemoryLimit(int64(number(os.Args[4])) << 20)
	q, m := &queue{}, &chained{}
	first := newNode(0, nil, nil)
	q.first.Store(first)
	q.last.Store(first)
	for at := range m.rows {
		m.rows[at] = &row{}
	}
	for key := uint32(0); !isQueue && key < keys; key++ {
		m.change(key, newNode(uint64(key), nil, nil))
	}
	tallies := make([]tally, threads)
	var all sync.WaitGroup
	for k := uint32(0); k < threads; k++ {
		all.Add(1)
		go func(k uint32) {
			defer all.Done()
			if isQueue {
				pairs(q, rounds, &tallies[k])
			} else {
				mix(m, threads, rounds, k, &tallies[k])
			}
		}(k)
	}
	all.Wait()
	count, sum := uint64(0), uint64(0)
	for k := range tallies {
		count += tallies[k].count
		sum += tallies[k].sum
	}
	fmt.Printf("count %d sum %d\n", count, sum)
	if os.Getenv("TELL") != "" {
		var stats runtime.MemStats
		runtime.ReadMemStats(&stats)
		fmt.Fprintln(os.Stderr, "collections", stats.NumGC)
	}
}
