// A map under a lock, tested: README.md says how it is run.
package main

import (
	"os"
	"sync"
)

type lockedMap struct {
	lock  sync.Mutex
	pairs map[uint64]uint64
}

// Returns what is at a key, and then changes the map.
func (m *lockedMap) at(key uint64, change func(before uint64)) Said {
	m.lock.Lock()
	defer m.lock.Unlock()
	before, found := m.pairs[key]
	change(before)
	return ToldIf(before, found)
}

func (m *lockedMap) Get(key uint64) Said { return m.at(key, func(uint64) {}) }
func (m *lockedMap) Put(key, value uint64) Said {
	return m.at(key, func(uint64) { m.pairs[key] = value })
}
func (m *lockedMap) Del(key uint64) Said { return m.at(key, func(uint64) { delete(m.pairs, key) }) }

// Values are from 1 up, so that what is not there is none that is expected, but for a 0.
func (m *lockedMap) Replace(key, old, value uint64) Said {
	return m.at(key, func(before uint64) {
		if before == old && old != 0 {
			m.pairs[key] = value
		}
	})
}

func (m *lockedMap) Scan(low, high uint64) Said {
	m.lock.Lock()
	defer m.lock.Unlock()
	var pairs [][2]uint64
	for key := low; key <= high; key++ {
		if value, found := m.pairs[key]; found {
			pairs = append(pairs, [2]uint64{key, value})
		}
	}
	return ToldPairs(pairs)
}

func main() {
	os.Exit(Run("lockedMap", func() Map { return &lockedMap{pairs: map[uint64]uint64{}} }, os.Args[1:]...))
}
