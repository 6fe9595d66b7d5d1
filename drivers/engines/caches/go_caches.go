// Caches in Go, tested: three of golang-lru, and ristretto. README.md says how they are built.
package main

import (
	"fmt"
	"os"

	"github.com/dgraph-io/ristretto"
	lru "github.com/hashicorp/golang-lru"
)

const mostEntries, mostInParts = 4, 8 // of a plain LRU; of those that divide them

// A value or none, as a cache of interfaces returns it.
func valueOf(value interface{}, isThere bool) Said {
	if !isThere {
		return None
	}
	return Told(value.(uint64))
}

type lruMap struct{ *lru.Cache }

func (m lruMap) Get(key uint64) Said        { return valueOf(m.Cache.Get(key)) }
func (m lruMap) Put(key, value uint64) Said { m.Cache.Add(key, value); return Done }
func (m lruMap) Del(key uint64) Said {
	if m.Cache.Remove(key) {
		return Found
	}
	return None
}
func (m lruMap) PutIfAbsent(key, value uint64) Said {
	before, isThere, _ := m.Cache.PeekOrAdd(key, value)
	return valueOf(before, isThere)
}

type twoQueueMap struct{ *lru.TwoQueueCache }

func (m twoQueueMap) Get(key uint64) Said        { return valueOf(m.TwoQueueCache.Get(key)) }
func (m twoQueueMap) Put(key, value uint64) Said { m.TwoQueueCache.Add(key, value); return Done }
func (m twoQueueMap) Del(key uint64) Said        { m.TwoQueueCache.Remove(key); return Done }

type arcMap struct{ *lru.ARCCache }

func (m arcMap) Get(key uint64) Said        { return valueOf(m.ARCCache.Get(key)) }
func (m arcMap) Put(key, value uint64) Said { m.ARCCache.Add(key, value); return Done }
func (m arcMap) Del(key uint64) Said        { m.ARCCache.Remove(key); return Done }

// Ristretto: a Set that it drops has changed nothing.
type ristrettoMap struct{ *ristretto.Cache }

func (m ristrettoMap) Get(key uint64) Said { return valueOf(m.Cache.Get(key)) }
func (m ristrettoMap) Put(key, value uint64) Said {
	if m.Cache.Set(key, value, 1) {
		return Done
	}
	return Refused
}
func (m ristrettoMap) Del(key uint64) Said { m.Cache.Del(key); return Done }

func endIf(err error) {
	if err != nil {
		fmt.Fprintln(os.Stderr, "go_caches:", err)
		os.Exit(5)
	}
}

func cacheOf(which string) Map {
	switch which {
	case "lru":
		cache, err := lru.New(mostEntries)
		endIf(err)
		return lruMap{cache}
	case "2q":
		cache, err := lru.New2Q(mostInParts)
		endIf(err)
		return twoQueueMap{cache}
	case "arc":
		cache, err := lru.NewARC(mostInParts)
		endIf(err)
		return arcMap{cache}
	case "ristretto":
		cache, err := ristretto.NewCache(&ristretto.Config{NumCounters: 100, MaxCost: mostInParts, BufferItems: 64})
		endIf(err)
		return ristrettoMap{cache}
	}
	endIf(fmt.Errorf("the first argument is lru, 2q, arc or ristretto"))
	return nil
}

func main() {
	which := ""
	if len(os.Args) > 1 {
		which = os.Args[1]
		os.Args = append(os.Args[:1], os.Args[2:]...)
	}
	cacheOf(which)
	os.Exit(Run(which, func() Map { return cacheOf(which) }, os.Args[1:]...))
}
