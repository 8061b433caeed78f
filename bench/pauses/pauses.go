// The work `pauses` of crates/bench_heaps in Go: workers that keep orders below a directory, and replace one with each transaction, in rounds with a rest before each.
// pauses CELLS LIVE WORKERS TRANSACTIONS. The heap may grow until the live set is the stated share of it, which is 48 bytes for each cell of ours. A pause here
// is all that one cycle stopped the world.
package main

import (
	"fmt"
	"os"
	"runtime"
	"runtime/debug"
	"sort"
	"strconv"
	"sync"
	"syscall"
	"time"
	"unsafe"
)

const round, rest = 600 * time.Millisecond, 100 * time.Millisecond

type node struct {
	next  [4]*node
	value uint32
}

func order(number uint32) *node {
	order := &node{value: number}
	var line *node
	for k := 0; k < 5; k++ {
		item := &node{value: number}
		line = &node{next: [4]*node{line, item}, value: number}
	}
	order.next[0] = line
	tree := &node{value: number}
	for k := range tree.next {
		tree.next[k] = &node{value: number}
	}
	order.next[1] = tree
	return order
}

func lowest(at *node, order uint32, levels uint) *node {
	for level := levels - 1; level > 0; level-- {
		way := (order >> (2 * level)) % 4
		if at.next[way] == nil {
			at.next[way] = &node{}
		}
		at = at.next[way]
	}
	return at
}

func look(directory *node, at uint32, levels uint) uint64 {
	order := lowest(directory, at, levels).next[at%4]
	sum := uint64(order.value)
	for line := order.next[0]; line != nil; line = line.next[0] {
		sum += uint64(line.value) + uint64(line.next[1].value)
	}
	sum += uint64(order.next[1].value)
	for _, leaf := range order.next[1].next {
		sum += uint64(leaf.value)
	}
	return sum
}

type worker struct {
	directory                  *node
	orders, transactions, made uint32
	number, sum                uint64
	levels                     uint
	times                      []int64
}

// Room for so many numbers outside the heap, each page of which is written once.
func outside(count int) []int64 {
	bytes, err := syscall.Mmap(-1, 0, 8*count+8, syscall.PROT_READ|syscall.PROT_WRITE, syscall.MAP_ANON|syscall.MAP_PRIVATE|syscall.MAP_POPULATE)
	if err != nil {
		panic(err)
	}
	return unsafe.Slice((*int64)(unsafe.Pointer(&bytes[0])), count)
}

func next(x uint64) uint64 {
	x ^= x << 13
	x ^= x >> 7
	return x ^ x<<17
}

func (w *worker) replace(at, number uint32) {
	made := order(number)
	lowest(w.directory, at, w.levels).next[at%4] = made
}

func (w *worker) fill() {
	w.levels = 1
	for w.orders>>(2*w.levels) != 0 {
		w.levels++
	}
	w.directory = &node{}
	for at := uint32(0); at < w.orders; at++ {
		w.replace(at, at)
	}
}

// A round: transactions until all are made or its time is over.
func (w *worker) churn() {
	began := time.Now()
	before := began
	for w.made < w.transactions && before.Sub(began) < round {
		w.number = next(w.number)
		w.replace(uint32((w.number>>20)%uint64(w.orders)), w.made)
		w.number = next(w.number)
		w.sum += look(w.directory, uint32((w.number>>20)%uint64(w.orders)), w.levels)
		now := time.Now()
		w.times[w.made] = now.Sub(before).Nanoseconds()
		w.made++
		before = now
	}
}

func isMore(workers []*worker) bool {
	for _, w := range workers {
		if w.made < w.transactions {
			return true
		}
	}
	return false
}

func all(workers []*worker, part func(*worker)) {
	var group sync.WaitGroup
	for _, w := range workers {
		group.Add(1)
		go func(w *worker) {
			part(w)
			group.Done()
		}(w)
	}
	group.Wait()
}

func main() {
	var words [4]int
	for k := range words {
		words[k], _ = strconv.Atoi(os.Args[k+1])
	}
	cells, live, k, transactions := words[0], words[1], words[2], words[3]
	debug.SetGCPercent(100 * (100 - live) / live)
	workers := make([]*worker, k)
	for i := range workers {
		share := transactions / k
		if i < transactions%k {
			share++
		}
		workers[i] = &worker{orders: uint32(cells * live / 100 / k * 3 / 49), transactions: uint32(share), number: 88172645463325252 + uint64(i), times: outside(share)}
	}
	all(workers, (*worker).fill)
	runtime.GC()
	var stats debug.GCStats
	debug.ReadGCStats(&stats)
	before := stats.NumGC
	took := int64(1)
	for isMore(workers) {
		time.Sleep(rest)
		start := time.Now()
		all(workers, (*worker).churn)
		took += time.Since(start).Microseconds()
	}
	debug.ReadGCStats(&stats)
	n := int(stats.NumGC - before)
	if n > len(stats.Pause) {
		n = len(stats.Pause)
	}
	lengths := append([]time.Duration{}, stats.Pause[:n]...)
	sort.Slice(lengths, func(a, b int) bool { return lengths[a] < lengths[b] })
	var sum time.Duration
	for _, length := range lengths {
		sum += length
	}
	at := func(share int) int64 {
		if n == 0 {
			return 0
		}
		k := n * share / 100
		if k > n-1 {
			k = n - 1
		}
		return lengths[k].Microseconds()
	}
	mean := int64(0)
	if n > 0 {
		mean = sum.Microseconds() / int64(n)
	}
	fmt.Printf("microseconds %d rate %d\n", took, int64(transactions)*1000000/took)
	fmt.Printf("stops %d least %d mean %d median %d most99 %d longest %d\n", n, at(0), mean, at(50), at(99), at(100))
	times := outside(transactions)[:0]
	for _, w := range workers {
		times = append(times, w.times...)
	}
	sort.Slice(times, func(a, b int) bool { return times[a] < times[b] })
	part := func(of int) int64 {
		at := len(times) * of / 10000
		if at > len(times)-1 {
			at = len(times) - 1
		}
		return times[at]
	}
	fmt.Printf("latency p50 %d p99 %d p999 %d slowest %d\n", part(5000), part(9900), part(9990), part(10000))
}
