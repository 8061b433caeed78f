// Binary trees in Go: the work `trees` of crates/bench_heaps, line by line. go DEPTH WORKERS. Its collector has all processors, as others here have.
package main

import (
	"fmt"
	"os"
	"strconv"
	"sync"
)

// What an object of ours has besides its two references: its value, and its identity.
type node struct {
	left, right     *node
	value, identity uint64
}

func grow(depth int) *node {
	if depth == 0 {
		return &node{}
	}
	left := grow(depth - 1)
	right := grow(depth - 1)
	return &node{left: left, right: right}
}

func count(n *node) uint64 {
	if n == nil {
		return 0
	}
	return 1 + count(n.left) + count(n.right)
}

// The short-lived trees of one worker, depth by depth.
func play(depth, workers, at int, checks *[5]uint64) {
	for i := 0; i < 5 && 4+2*i <= depth; i++ {
		trees := 1 << (depth - 2*i)
		share := (trees + workers - 1 - at) / workers
		for tree := 0; tree < share; tree++ {
			checks[i] += count(grow(4 + 2*i))
		}
	}
}

func main() {
	depth, _ := strconv.Atoi(os.Args[1])
	workers, _ := strconv.Atoi(os.Args[2])
	fmt.Printf("stretch tree of depth %d\t check: %d\n", depth+1, count(grow(depth+1)))
	kept := grow(depth)
	checks := make([][5]uint64, workers)
	var all sync.WaitGroup
	for at := 0; at < workers; at++ {
		all.Add(1)
		go func(at int) {
			defer all.Done()
			play(depth, workers, at, &checks[at])
		}(at)
	}
	all.Wait()
	for i := 0; i < 5 && 4+2*i <= depth; i++ {
		sum := uint64(0)
		for at := 0; at < workers; at++ {
			sum += checks[at][i]
		}
		fmt.Printf("%d\t trees of depth %d\t check: %d\n", 1<<(depth-2*i), 4+2*i, sum)
	}
	fmt.Printf("long lived tree of depth %d\t check: %d\n", depth, count(kept))
}
