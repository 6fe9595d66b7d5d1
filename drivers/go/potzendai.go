// Tests an ordered map of one's own: threads (goroutines) call its methods, what they do is recorded, and the program bench judges each
// recording, or follows one stream of it. Copy this file: it needs only Go 1.19 and the program. In a package of its own its first
// line is `package potzendai`, and a whole program is
//
//	func main() { os.Exit(potzendai.Run("mine", func() potzendai.Map { return newMap() }, os.Args[1:]...)) }
//
// In a test, err := potzendai.Check("mine", .., "--seconds", "5") has the explanation.
package main

import (
	"bytes"
	"encoding/json"
	"errors"
	"fmt"
	"io"
	"math"
	"os"
	"os/exec"
	"os/signal"
	"path/filepath"
	"regexp"
	"runtime"
	"sort"
	"strconv"
	"strings"
	"sync"
	"sync/atomic"
	"syscall"
	"time"
)

// Map is a map of numbers. It may also have any of these methods; those that it does not have are not called:
//
//	Connection() Map                     what one thread calls instead of the map
//	Close()                              of a connection, at the end of a run; and of a map, after its last use
//	Reopen() Map                         for --reopen: closes the map at rest, and returns it opened again, with what it held
//	Snapshots(taken func())              of a connection of one thread: its reads call taken when they have their snapshot; the read counts as
//	                                     answered at this moment, and its pairs may be read later
//	Del(key uint64) Said                 the value before
//	Scan(low, high uint64) Said          the pairs of one moment, both ends included, by rising keys
//	Replace(key, old, value uint64) Said the value found; or Done if it was replaced, Other if it was not
//	PutIfAbsent(key, value uint64) Said  None if it was put, otherwise the value found
//	Floor(key uint64) Said               the greatest pair up to the key
//	Ceiling(key uint64) Said             the least pair from the key on
//	PopFirst() Said                      the least pair, which is removed
//
// Nothing else changes the map.
type Map interface {
	Get(key uint64) Said        // the value
	Put(key, value uint64) Said // the value before
}

// Said is what a method of the map answers.
type Said struct {
	word       string
	key, value uint64
	pairs      [][2]uint64
}

// None: there was no value. Done: it was done, and nothing is reported. Found: there was a value, which is not reported. Refused:
// nothing has changed. Unknown: nobody knows whether it was done, as of a request that timed out.
var (
	None    = Said{word: "none"}
	Done    = Said{word: "done"}
	Found   = Said{word: "found"}
	Other   = Said{word: "other"}
	Refused = Said{word: "refused"}
	Unknown = Said{word: "unknown"}
)

// Told is the value that there was.
func Told(value uint64) Said { return Said{word: "told", value: value} }

// ToldIf is the value that there was, or None if there was none.
func ToldIf(value uint64, isThere bool) Said {
	if !isThere {
		return None
	}
	return Told(value)
}

// ToldPair is the pair that there was.
func ToldPair(key, value uint64) Said { return Said{word: "told", key: key, value: value} }

// FoundKey is a pair of which only the key is reported.
func FoundKey(key uint64) Said { return Said{word: "found", key: key} }

// ToldPairs are those of a scan, by rising keys.
func ToldPairs(pairs [][2]uint64) Said {
	return Said{word: "told", pairs: append([][2]uint64{}, pairs...)}
}

func (s Said) tells() bool { return s.word == "told" || s.word == "none" }

const (
	yes, no, undecided, badWords, badFile = 0, 1, 2, 5, 6
	processes, mostCalls, span, seldom    = 64, 4096, 16, 20
	// The limits of a stream and of its keys; how many stamps a thread may be ahead of what is written; how many bytes are written at once.
	streamProcesses, streamKeys, ahead, batch = 65536, 16384, 8192, 65536
	running, over, failed                     = 0, 1, 2
	reportShown                               = 1000    // bytes of the report of a stream without order
	mostKept                                  = 1 << 26 // bytes of a stream that are kept for a file
	ownValues                                 = 1 << 63 // under --cache, values from here on are the driver's own
	mostBeside                                = 32      // calls that a stream has on behalf of one
	keptNotes                                 = 1000000 // of so many events of a stream the notes are kept for the words of a no
	openShown                                 = 6       // of the other calls that were open
	batchRounds, batchCalls                   = 64, 256 // so many rounds are judged together, of so many calls
)

var (
	sayings   = []string{"told", "none", "done", "found", "other", "refused", "unknown"}
	kinds     = []string{"get", "put", "del", "scan", "replace", "put_if_absent", "floor", "ceiling", "pop_first"}
	shares    = map[string]uint64{"get": 40, "put": 30, "del": 10, "scan": 5, "replace": 10, "put_if_absent": 5, "floor": 3, "ceiling": 3, "pop_first": 2}
	histories = map[string]string{"get": "get", "put": "insert", "del": "remove", "scan": "scan", "replace": "replace", "put_if_absent": "insert"}
	verdicts  = []string{"yes", "no", "undecided"}
	breaks    = []string{"drop", "race", "replay", "stale", "zombie", "torn", "cas"}
	broken    = map[string]string{"drop": "put", "race": "put", "replay": "put", "stale": "get", "zombie": "del", "torn": "scan", "cas": "replace"}
)

// A stop ends a run with a line and a status.
type stop struct {
	status int
	line   string
}

func (s stop) Error() string { return s.line }

func fail(status int, format string, words ...interface{}) {
	panic(stop{status, fmt.Sprintf(format, words...)})
}

func isOneOf(word string, words ...string) bool {
	for _, one := range words {
		if one == word {
			return true
		}
	}
	return false
}

func writesKey(kind string) bool { return isOneOf(kind, "put", "del", "replace", "put_if_absent") }

func writes(kind string) bool {
	return isOneOf(kind, "put", "del", "replace", "put_if_absent", "pop_first")
}

// Draws

// Steele, Lea and Flood's SplitMix: the number that a state gives.
func mixed(state uint64) uint64 {
	z := state + 0x9e3779b97f4a7c15
	z = (z ^ z>>30) * 0xbf58476d1ce4e5b9
	z = (z ^ z>>27) * 0x94d049bb133111eb
	return z ^ z>>31
}

// Numbers that a seed, a round and a thread decide.
type draws struct{ state uint64 }

func newDraws(seed, round, thread uint64) *draws {
	return &draws{mixed(seed) ^ mixed(round+1<<40) ^ mixed(thread+1<<50)}
}

func (d *draws) below(bound uint64) uint64 {
	drawn := mixed(d.state) % bound
	d.state += 0x9e3779b97f4a7c15
	return drawn
}

func (d *draws) pause() {
	if d.below(4) != 0 {
		runtime.Gosched()
	} else {
		time.Sleep(time.Duration(1000 + d.below(50000)))
	}
}

var (
	yields, points uint64
	hasPoints      atomic.Bool
)

// Point may be called by a map's methods at each place where another thread should be able to run: under --yield it sometimes does.
func Point() {
	hasPoints.Store(true)
	giveWay()
}

func giveWay() {
	if often := atomic.LoadUint64(&yields); often > 0 {
		drawn := draws{atomic.AddUint64(&points, 0x9e3779b97f4a7c15)}
		if drawn.below(1000) < often {
			drawn.pause()
		}
	}
}

// What a history has of a call

// A call of a history: its name and its words.
type call struct {
	name  string
	words []uint64
}

func (c *call) text() string {
	text := `["` + c.name + `"`
	for _, word := range c.words {
		text += "," + strconv.FormatUint(word, 10)
	}
	return text + "]"
}

func pairsText(pairs [][2]uint64) string {
	texts := make([]string, len(pairs))
	for i, pair := range pairs {
		texts[i] = fmt.Sprintf("[%d,%d]", pair[0], pair[1])
	}
	return "[" + strings.Join(texts, ",") + "]"
}

// Whether the answer says which call of a history it was. Of a cache each one does, since the note of a call has its answer.
func (o *options) isHeld(kind string) bool {
	return o.cache != "" || isOneOf(kind, "put_if_absent", "floor", "ceiling", "pop_first")
}

// The words that a function may answer.
var fits = map[string][]string{
	"get": {"told", "none", "done", "found", "refused", "unknown"}, "put": {"told", "none", "done", "found", "refused", "unknown"},
	"del": {"told", "none", "done", "found", "refused", "unknown"}, "scan": {"told", "none", "done", "refused", "unknown"},
	"replace":       {"told", "none", "done", "found", "other", "refused", "unknown"},
	"put_if_absent": {"told", "none", "found", "refused", "unknown"}, "floor": {"told", "none", "done", "found", "refused", "unknown"},
	"ceiling": {"told", "none", "done", "found", "refused", "unknown"}, "pop_first": {"told", "none", "found", "refused"},
}

// An answer as a text; none if the call stays open.
func answerText(said Said) string {
	switch said.word {
	case "told":
		return strconv.FormatUint(said.value, 10)
	case "none":
		return "null"
	case "unknown":
		return ""
	}
	return `"` + said.word + `"`
}

// Floor and ceiling are scans from the key to what was found, or to the end.
func edge(kind string, key uint64, said Said) (*call, string) {
	low, high := key, uint64(math.MaxUint64)
	if kind == "floor" {
		low, high = 0, key
	}
	if said.word == "none" {
		return &call{"scan", []uint64{low, high}}, "[]"
	}
	if said.word == "found" {
		return &call{"get", []uint64{said.key}}, `"found"`
	}
	if low <= said.key && said.key <= high {
		if kind == "floor" {
			low = said.key
		} else {
			high = said.key
		}
	}
	return &call{"scan", []uint64{low, high}}, pairsText([][2]uint64{{said.key, said.value}})
}

// The call and the answer that a history has; no call if it is left out, since it reports nothing.
func noted(kind string, words []uint64, said Said) (*call, string) {
	isRead := isOneOf(kind, "get", "scan", "floor", "ceiling")
	if said.word == "refused" && !isOneOf(kind, "put", "del", "replace") || isRead && isOneOf(said.word, "done", "unknown") {
		return nil, ""
	}
	switch {
	case kind == "floor" || kind == "ceiling":
		return edge(kind, words[0], said)
	case kind == "pop_first" && said.word == "none":
		return &call{"scan", []uint64{0, math.MaxUint64}}, "[]"
	case kind == "pop_first":
		return &call{"remove", []uint64{said.key}}, answerText(said)
	case kind == "scan":
		return &call{"scan", words}, pairsText(said.pairs)
	case kind == "put_if_absent" && isOneOf(said.word, "told", "found"):
		return &call{"get", words[:1]}, answerText(said)
	case kind == "replace" && said.word == "done":
		return &call{"replace", words}, strconv.FormatUint(words[1], 10)
	}
	return &call{histories[kind], words}, answerText(said)
}

// What a history has of a call: its invocation, and its answer, or none if the call stays open. Also a note of the call as it was made, if that is
// another one, and further calls of the same interval, each by a process of its own.
type made struct {
	call         *call
	answer, note string
	beside       []made
}

// What a history has of a call; nothing if it is left out.
func (o *options) recorded(kind string, words []uint64, said Said, fresh func() uint64) *made {
	call, answer := noted(kind, words, said)
	if call == nil {
		return nil
	}
	plain := &made{call: call, answer: answer}
	if o.cache == "" {
		return plain
	}
	return o.recordedOfCache(kind, words, said, plain, fresh)
}

// What a history has of a call of a cache, which may lose any key at any time. A miss is recorded so that the key has no value from then on. So this
// history has an order if and only if the cache's own has one in which keys may be lost. Late: a miss says nothing.
func (o *options) recordedOfCache(kind string, words []uint64, said Said, plain *made, fresh func() uint64) *made {
	isLate, isWritten := o.cache == "late", isOneOf(kind, "put", "del", "put_if_absent")
	if isLate && (said.word == "other" || said.word == "none" && !isWritten) {
		return nil
	}
	before, none := plain.call.said(), ", answered none: the key was gone"
	if isLate {
		none = ", answered none"
	}
	switch {
	case said.word == "none" && isOneOf(kind, "put", "put_if_absent"):
		return &made{call: &call{"insert", words}, answer: `"done"`, note: before + none}
	case said.word == "none" && isOneOf(kind, "get", "del", "replace"):
		return &made{call: &call{"remove", words[:1]}, answer: `"done"`, note: before + none}
	case said.word == "other":
		return &made{call: &call{"replace", []uint64{words[0], words[1], fresh()}}, answer: `"done"`, note: before + ", answered another value"}
	case plain.call.name != "scan":
		return plain
	}
	pairs := said.pairs
	if kind != "scan" && said.word == "told" {
		pairs = [][2]uint64{{said.key, said.value}}
	}
	return o.scanOfCache(plain, pairs, isLate, before)
}

// A scan with a remove of each key that it did not have; or, if a miss says nothing, gets of the keys that it had.
func (o *options) scanOfCache(plain *made, pairs [][2]uint64, isLate bool, before string) *made {
	var all []made
	if isLate {
		for _, pair := range pairs {
			note := fmt.Sprintf("%s, answered %d: %d", before, pair[0], pair[1])
			all = append(all, made{call: &call{"get", []uint64{pair[0]}}, answer: strconv.FormatUint(pair[1], 10), note: note})
		}
		if len(all) == 0 {
			return nil
		}
		all[0].beside = all[1:]
		return &all[0]
	}
	held := map[uint64]bool{}
	for _, pair := range pairs {
		held[pair[0]] = true
	}
	for key := plain.call.words[0]; key <= plain.call.words[1] && key < o.keys; key++ {
		if !held[key] {
			note := fmt.Sprintf("%s, which did not have %d: the key was gone", before, key)
			all = append(all, made{call: &call{"remove", []uint64{key}}, answer: `"done"`, note: note})
		}
	}
	plain.beside = all
	return plain
}

// The functions that a connection has.
type functions map[string]func(words ...uint64) Said

func functionsOf(connection Map) functions {
	has := functions{
		"get": func(words ...uint64) Said { return connection.Get(words[0]) },
		"put": func(words ...uint64) Said { return connection.Put(words[0], words[1]) },
	}
	if it, is := connection.(interface{ Del(uint64) Said }); is {
		has["del"] = func(words ...uint64) Said { return it.Del(words[0]) }
	}
	if it, is := connection.(interface{ Scan(low, high uint64) Said }); is {
		has["scan"] = func(words ...uint64) Said { return it.Scan(words[0], words[1]) }
	}
	if it, is := connection.(interface {
		Replace(key, old, value uint64) Said
	}); is {
		has["replace"] = func(words ...uint64) Said { return it.Replace(words[0], words[1], words[2]) }
	}
	if it, is := connection.(interface{ PutIfAbsent(key, value uint64) Said }); is {
		has["put_if_absent"] = func(words ...uint64) Said { return it.PutIfAbsent(words[0], words[1]) }
	}
	if it, is := connection.(interface{ Floor(uint64) Said }); is {
		has["floor"] = func(words ...uint64) Said { return it.Floor(words[0]) }
	}
	if it, is := connection.(interface{ Ceiling(uint64) Said }); is {
		has["ceiling"] = func(words ...uint64) Said { return it.Ceiling(words[0]) }
	}
	if it, is := connection.(interface{ PopFirst() Said }); is {
		has["pop_first"] = func(words ...uint64) Said { return it.PopFirst() }
	}
	return has
}

// The connection of one thread, and what closes it.
func connectionOf(m Map) (Map, func()) {
	it, is := m.(interface{ Connection() Map })
	if !is {
		return m, func() {}
	}
	connection := it.Connection()
	if closing, is := connection.(interface{ Close() }); is {
		return connection, closing.Close
	}
	return connection, func() {}
}

// Closes a map after its last use.
func forget(m Map) {
	if it, is := m.(interface{ Close() }); is {
		it.Close()
	}
}

func (f functions) ask(o *options, kind string, words ...uint64) Said {
	said := f[kind](words...)
	for _, pair := range append([][2]uint64{{said.key, said.value}}, said.pairs...) {
		if o.cache != "" && said.word == "told" && pair[1] >= ownValues {
			fail(badWords, "%s said a value from 2^63 on, and --cache needs these for its own use", kind)
		}
	}
	if !isOneOf(said.word, fits[kind]...) {
		fail(badWords, "%s said %s, which does not fit it", kind, map[bool]string{true: "nothing", false: said.word}[said.word == ""])
	}
	return said
}

// A map that is wrong now and then, around one that may be right: a test of the test

type wrong struct {
	truly functions
	how   string
	draws *draws
	keys  uint64
	once  map[uint64]Said
	late  []uint64
	style string
	times uint64 // how often it went wrong
}

func (w *wrong) goes(how string) bool { return w.how == how && w.draws.below(seldom) == 0 }

// What the put of the map would say if a get says this.
func (w *wrong) inStyle(got Said) Said {
	if w.style == "done" {
		return Done
	}
	if w.style == "found" && got.word == "told" {
		return Found
	}
	return got
}

func (w *wrong) get(words ...uint64) Said {
	once, is := w.once[words[0]]
	if is && w.goes("stale") {
		w.times++
		return once
	}
	said := w.truly["get"](words...)
	if said.tells() && (!is || w.draws.below(4) == 0) {
		w.once[words[0]] = said
	}
	return said
}

// Makes a get and then a put, as if they were one call. If the put reports what it found, the get is of the same key. Otherwise the get is of the key
// next to it, and what it got is put back.
func (w *wrong) race(key, value uint64) Said {
	beside := key ^ 1
	if w.style == "told" || beside >= w.keys {
		beside = key
	}
	got := w.truly["get"](beside)
	w.draws.pause()
	if beside != key && got.word == "told" {
		w.truly["put"](beside, got.value)
	}
	said := w.truly["put"](key, value)
	if beside != key || w.style == "done" || !got.tells() {
		return said
	}
	return w.inStyle(got)
}

func (w *wrong) put(words ...uint64) Said {
	if w.style != "" && w.goes("race") {
		w.times++
		return w.race(words[0], words[1])
	}
	if w.style != "" && w.goes("drop") {
		if got := w.truly["get"](words[0]); got.tells() {
			w.times++
			return w.inStyle(got)
		}
	}
	if w.goes("replay") {
		w.late = words
	}
	said := w.truly["put"](words...)
	if isOneOf(said.word, "told", "done", "found") {
		w.style = said.word
	}
	return said
}

func (w *wrong) del(words ...uint64) Said {
	if w.goes("zombie") {
		if got := w.truly["get"](words[0]); got.word == "told" {
			w.late = []uint64{words[0], got.value}
		}
	}
	return w.truly["del"](words...)
}

func (w *wrong) scan(words ...uint64) Said {
	low, high := words[0], words[1]
	if low == high || !w.goes("torn") {
		return w.truly["scan"](low, high)
	}
	first := w.truly["scan"](low, (low+high)/2)
	w.draws.pause()
	second := w.truly["scan"]((low+high)/2+1, high)
	if first.word != "told" || second.word != "told" {
		return w.truly["scan"](low, high)
	}
	w.times++
	return ToldPairs(append(append([][2]uint64{}, first.pairs...), second.pairs...))
}

func (w *wrong) replace(words ...uint64) Said {
	if !w.goes("cas") {
		return w.truly["replace"](words...)
	}
	if said := w.truly["put"](words[0], words[2]); isOneOf(said.word, "refused", "unknown") {
		return said
	}
	w.times++
	return Done
}

// The functions of the broken map: those of the true one. A put that is still to come is made soon, before another call.
func (w *wrong) functions() functions {
	all := functions{}
	own := functions{"get": w.get, "put": w.put, "del": w.del, "scan": w.scan, "replace": w.replace}
	for kind, function := range w.truly {
		if wrongly, is := own[kind]; is {
			function = wrongly
		}
		function := function
		all[kind] = func(words ...uint64) Said {
			if w.late != nil && w.draws.below(2) == 1 {
				late := w.late
				w.late = nil
				w.times++
				w.truly["put"](late...)
			}
			return function(words...)
		}
	}
	return all
}

// Threads and what they record

// An event: the invocation of a call, or an answer if it has no call. It names the function, unless no thread called one, and what the function said,
// when the call is over. In a round its process is known.
type event struct {
	stamp        uint64
	thread, life int
	process      int
	call         *call
	answer, note string
	kind, said   string
	beside       []made
	isAnswered   bool
}

// The two events of a call; there is no second one if the call stays open.
func eventsOf(begin, end uint64, thread, life int, kind, said string, m *made) []event {
	events := []event{{stamp: begin, thread: thread, life: life, kind: kind, call: m.call, note: m.note, beside: m.beside}}
	if m.answer != "" {
		events = append(events, event{stamp: end, thread: thread, life: life, kind: kind, answer: m.answer, said: said, beside: m.beside})
	}
	return events
}

// A task is the number of a round, how many processes a thread may be in turn, what the map holds, and the keys at which calls have no answer.
type task struct {
	round    uint64
	lives    int
	start    map[uint64]uint64
	doubtful map[uint64]bool
	from     uint64
}

// The lock of a key, and whether a call that writes the key has no answer. Such a call may still take effect between a get and the put after it.
type keyLock struct {
	sync.Mutex
	isDoubtful bool
}

// A worker is one thread: it draws calls, makes them, and notes them with the stamps of their beginning and their end.
type worker struct {
	number  uint64
	options *options
	stamps  *atomic.Uint64
	locks   []keyLock
	has     functions
	close   func()
	sayings map[string]uint64
	called  map[string]uint64
	seen    map[uint64]uint64
	memory  map[uint64]Said
	draws   *draws
	log     []event
	puts    uint64
	from    uint64
	made    uint64
	life    int
	lives   int
	stream  *stream
	process int
	helpers []int
	marks   uint64
	broken  *wrong
	// How often earlier broken maps went wrong.
	wrongTimes uint64
	reads      bool   // whether the open call only reads
	taken      uint64 // the stamp at which its snapshot was taken
}

func (w *worker) open(m Map) {
	connection, closing := connectionOf(m)
	w.has, w.close = functionsOf(connection), closing
	if it, is := connection.(interface{ Snapshots(taken func()) }); is && connection != m {
		it.Snapshots(w.take)
	}
	if w.options.broken != "" {
		w.broken = &wrong{truly: w.has, how: w.options.broken, draws: newDraws(w.options.seed, 0, w.number), keys: w.options.keys, once: map[uint64]Said{}}
		w.has = w.broken.functions()
	}
}

// Takes this moment as that of the answer of the open call, if the call only reads. Of several such moments the last one counts.
func (w *worker) take() {
	if !w.reads {
		return
	}
	if w.stream != nil && w.taken != 0 {
		w.stream.put(w.taken, happening{})
	}
	w.taken = w.stamps.Add(1)
}

// A value that no call puts.
func (w *worker) fresh() uint64 {
	w.marks++
	return ownValues + (w.marks-1)*w.options.threads + w.number
}

// The calls of a round. A process whose answer is unknown makes no further call.
func (w *worker) run(t task) {
	w.from = t.from
	w.log, w.made, w.life, w.seen, w.memory = nil, 0, 0, map[uint64]uint64{}, map[uint64]Said{}
	for key := uint64(0); key < w.options.keys && w.options.void == "own"; key++ {
		if value, is := t.start[key]; !t.doubtful[key] {
			w.memory[key] = ToldIf(value, is)
		}
	}
	w.draws, w.lives = newDraws(w.options.seed, t.round, w.number), t.lives
	for w.goesOn() {
		w.draw()
	}
}

// Whether it may make one more call.
func (w *worker) goesOn() bool {
	if w.stream != nil && (w.stream.state.Load() != running || w.process >= streamProcesses) {
		return false
	}
	return w.life < w.lives && (w.made < w.options.calls || w.options.calls == 0)
}

func (w *worker) draw() {
	place, kind := w.draws.below(w.options.total()), ""
	for _, kind = range kinds {
		if place < w.options.shares[kind] {
			break
		}
		place -= w.options.shares[kind]
	}
	key, value, high := w.drawKey(writes(kind)), uint64(0), uint64(0)
	if writes(kind) {
		value = w.from + w.puts*(w.options.threads+1) + w.number
		w.puts++
	}
	if kind == "scan" {
		if high = key + w.draws.below(w.options.span); high >= w.options.keys {
			high = w.options.keys - 1
		}
	}
	giveWay()
	switch {
	case kind == "scan" && w.options.scan == "steps":
		w.steps(key, high)
	case kind == "scan":
		w.make(kind, key, high)
	case kind == "pop_first":
		w.make(kind)
	case kind == "put" || kind == "put_if_absent":
		w.write(kind, key, value)
	case kind == "del":
		w.write(kind, key)
	case kind == "replace":
		w.write(kind, key, w.seen[key], value)
	default:
		w.make(kind, key)
	}
}

func (w *worker) drawKey(isWrite bool) uint64 {
	bound := w.options.keys
	if 0 < w.options.hot && w.options.hot < bound && w.draws.below(10) < 9 {
		bound = w.options.hot
	}
	key := w.draws.below(bound)
	if w.options.void != "own" || !isWrite {
		return key
	}
	if key = key/w.options.threads*w.options.threads + w.number; key < w.options.keys {
		return key
	}
	return w.number
}

func (w *worker) steps(low, high uint64) {
	for low <= high && w.goesOn() {
		said := w.make("ceiling", low)
		if said.word != "told" || said.key < low || said.key == math.MaxUint64 {
			break
		}
		low = said.key + 1
	}
}

func (w *worker) write(kind string, words ...uint64) {
	if w.locks != nil {
		w.locks[words[0]].Lock()
		defer w.locks[words[0]].Unlock()
	}
	w.make(kind, words...)
}

// Makes a call between two stamps, and notes it.
func (w *worker) make(kind string, words ...uint64) Said {
	isVoid, got := kind == "put" || kind == "del", Done
	begin := w.stamps.Add(1)
	if w.stream != nil && !w.options.isHeld(kind) {
		w.stream.put(begin, happening{parts: []part{{process: w.process, call: &call{histories[kind], words}}}, kind: kind})
	}
	if w.locks != nil && isVoid {
		got = w.has.ask(w.options, "get", words[0])
	}
	if w.options.cache != "" {
		got = Done // the key may be lost between that get and the call
	}
	w.reads, w.taken = isOneOf(kind, "get", "scan", "floor", "ceiling"), 0
	said := w.has.ask(w.options, kind, words...)
	w.reads = false
	end := w.taken
	if end == 0 {
		end = w.stamps.Add(1)
	}
	w.made++
	w.called[kind]++
	w.sayings[said.word]++
	known := said
	if writes(kind) && len(words) > 0 {
		if w.locks != nil {
			lock := &w.locks[words[0]]
			if lock.isDoubtful = lock.isDoubtful || said.word == "unknown"; lock.isDoubtful {
				got = Done
			}
		}
		known = w.known(kind, words, said, got)
	}
	if w.options.void == "told" && isVoid && isOneOf(known.word, "done", "found") {
		fail(badWords, "%s said %s, and --void told wants the value before", kind, known.word)
	}
	if kind == "put" || kind == "replace" && said.word == "done" {
		w.seen[words[0]] = words[len(words)-1]
	} else if said.word == "told" && isOneOf(kind, "get", "del", "replace", "put_if_absent") {
		w.seen[words[0]] = said.value
	}
	m := w.options.recorded(kind, words, known, w.fresh)
	if w.stream != nil {
		w.handOver(begin, end, kind, said.word, m)
	} else if m != nil {
		w.log = append(w.log, eventsOf(begin, end, int(w.number), w.life, kind, said.word, m)...)
		if m.answer == "" {
			w.life++
		}
	}
	return said
}

// Returns what is known of the answer. If a put or del was done and does not report what it found, the get before it under the key's lock says
// so, or what the only writer of the key remembers.
func (w *worker) known(kind string, words []uint64, said, got Said) Said {
	before, isKnown := w.memory[words[0]]
	isPut := kind == "put" || kind == "put_if_absent" && said.word == "none" ||
		kind == "replace" && (said.word == "done" || said.word == "told" && said.value == words[1])
	switch {
	case !isKnown || said.word == "refused":
	case said.word == "unknown" || kind == "replace" && said.word == "found":
		delete(w.memory, words[0])
	case isPut:
		w.memory[words[0]] = Told(words[len(words)-1])
	case kind == "del":
		w.memory[words[0]] = None
	}
	if kind != "put" && kind != "del" || said.word != "done" {
		return said
	}
	if isKnown {
		return before
	}
	if got.tells() {
		return got
	}
	return said
}

// Puts the events of a call that is over into the stream. A call that reports nothing is left out, or gets the answer `refused` if the stream has
// its invocation already. A call whose answer is unknown stays open, and its thread continues as another process.
func (w *worker) handOver(begin, end uint64, kind, said string, m *made) {
	isHeld := w.options.isHeld(kind)
	ending := happening{kind: kind, said: said}
	switch {
	case m != nil && len(m.beside) > mostBeside:
		m, ending.kind = nil, ""
		ending.isLeftOut = true
	case m == nil && !isHeld:
		ending.parts = []part{{process: w.process, answer: `"refused"`}}
	}
	if m == nil {
		if isHeld {
			w.stream.put(begin, happening{})
		}
		w.stream.put(end, ending)
		return
	}
	for len(w.helpers) < len(m.beside) {
		w.helpers = append(w.helpers, w.stream.nextProcess())
	}
	first := happening{parts: []part{{process: w.process, call: m.call, note: m.note}}, kind: kind}
	ending.parts = []part{{process: w.process, answer: m.answer}}
	for i, one := range m.beside {
		first.parts = append(first.parts, part{process: w.helpers[i], call: one.call, note: one.note})
		ending.parts = append(ending.parts, part{process: w.helpers[i], answer: one.answer})
	}
	if isHeld {
		w.stream.put(begin, first)
	}
	w.stream.put(end, ending)
	if m.answer == "" {
		w.process = w.stream.nextProcess()
	}
}

// A part of what a stamp of a stream has: a call of a process with its note, or its answer, or nothing if the call stays open.
type part struct {
	process      int
	call         *call
	answer, note string
}

// What a stamp of a stream has: first the event of a thread, then the events on its behalf; their function; and what the map said, if this ends a
// call.
type happening struct {
	parts      []part
	kind, said string
	isLeftOut  bool
}

// A call of a stream that is open, and when it began.
type openCall struct {
	call   *call
	stored uint64
}

// A stream of events, which a goroutine of its own writes to the program while others record. Stamps are numbers without a gap, and each has its
// slot. A thread that is too far ahead of what is written waits, so that memory does not grow. Between its two stamps a thread waits only for lower
// stamps, so the event of the least stamp always comes.
type stream struct {
	run           *run
	stamps        *atomic.Uint64
	slots         [ahead]atomic.Pointer[happening]
	taken, others atomic.Uint64
	state         atomic.Int32
	isEnded       atomic.Bool
	done          chan bool
	open          map[int]openCall
	writers       map[uint64]int
	number        uint64
	notes         map[uint64]string
	text, kept    []byte // what is to be handed over; and the stream so far, while it is no longer than is kept
	isLong        bool
	out           io.Writer
	asked         *exec.Cmd
	answer        bytes.Buffer
	wrong         interface{}
	status        int
}

func (s *stream) nextProcess() int { return int(s.run.options.threads + s.others.Add(1) - 1) }

func (s *stream) put(stamp uint64, what happening) {
	for times := 1; stamp >= s.taken.Load()+ahead && s.state.Load() != failed; times++ {
		rest(times)
	}
	s.slots[stamp%ahead].Store(&what)
}

// Lets other threads run: most times once, sometimes for some time.
func rest(times int) {
	if times%64 != 0 {
		runtime.Gosched()
	} else {
		time.Sleep(100 * time.Microsecond)
	}
}

func newStream(r *run, stamps *atomic.Uint64, start map[uint64]uint64) *stream {
	s := &stream{run: r, stamps: stamps, done: make(chan bool), open: map[int]openCall{}, writers: map[uint64]int{}, notes: map[uint64]string{}}
	s.taken.Store(stamps.Load() + 1)
	s.text = []byte(fmt.Sprintf("{\"start\":%s,\"version\":3}\n", pairsText(sorted(start))))
	go s.write()
	return s
}

// Writes each event in its turn, and asks for the verdict at the end.
func (s *stream) write() {
	defer close(s.done)
	defer func() {
		if s.wrong = recover(); s.wrong != nil {
			s.state.Store(failed)
		}
	}()
	ended := make(chan bool)
	s.out = os.Stdout
	if s.run.program != nil {
		s.ask(ended)
	} else {
		close(ended)
	}
	if s.handAll() != nil {
		s.state.Store(failed) // whoever follows has ended: the verdict says why
	}
	if s.asked == nil {
		return
	}
	if to, is := s.out.(io.Closer); is {
		to.Close()
	}
	<-ended
	s.status = s.run.program.checked("follow", s.asked.Wait(), s.asked, s.answer.String())
}

// Starts the program. The program prints its verdict when it has one, which may be while the stream is still running. Then the run is over.
func (s *stream) ask(ended chan bool) {
	p := s.run.program
	s.asked = exec.Command(p.at("follow"), "follow", "--budget", strconv.FormatUint(p.budget, 10))
	s.asked.Stderr = os.Stderr
	to, err := s.asked.StdinPipe()
	from, errFrom := s.asked.StdoutPipe()
	if err == nil {
		err = errFrom
	}
	if err == nil {
		err = s.asked.Start()
	}
	if err != nil {
		fail(badFile, "%s: %s", p.path, err)
	}
	s.out = to
	go func() {
		_, _ = s.answer.ReadFrom(from)
		s.state.CompareAndSwap(running, over)
		close(ended)
	}()
}

func (s *stream) handAll() error {
	for times := 1; ; times++ {
		isEnded, next := s.isEnded.Load(), s.taken.Load()
		if what := s.slots[next%ahead].Load(); what != nil {
			s.slots[next%ahead].Store(nil)
			s.taken.Store(next + 1)
			s.take(what)
			times = 0
		} else if isEnded && next != s.stamps.Load()+1 {
			return io.ErrUnexpectedEOF
		}
		if len(s.text) >= batch || times > 0 {
			s.keep()
			if _, err := s.out.Write(s.text); err != nil {
				return err
			}
			s.text = s.text[:0]
			s.run.progress()
		}
		if times > 0 && isEnded {
			return nil
		} else if times > 0 {
			rest(times)
		}
	}
}

// Stores what is written, for a file. If the stream is too long, nothing of it is stored any more.
func (s *stream) keep() {
	s.isLong = s.isLong || len(s.kept)+len(s.text) > mostKept
	if s.isLong || s.asked == nil {
		s.kept = nil
		return
	}
	s.kept = append(s.kept, s.text...)
}

// The lines of events, and the counts, as for a round. But nothing is stored of calls that are over. A call without an answer is over too: nobody
// waits for it.
func (s *stream) take(what *happening) {
	for i, one := range what.parts {
		if one.call != nil {
			if i > 0 {
				s.run.helped++
			}
			s.text = append(append(append(s.text, `{"invoke":`...), one.call.text()...), ',')
			if one.note != "" {
				s.notes[s.number] = one.note
				s.text = append(append(append(s.text, `"note":"`...), one.note...), `",`...)
			}
		} else if one.answer != "" {
			s.text = append(append(append(s.text, `{"answer":`...), one.answer...), ',')
		} else {
			continue
		}
		s.number++
		s.text = append(strconv.AppendInt(append(s.text, `"process":`...), int64(one.process), 10), "}\n"...)
	}
	s.forgetNotes()
	if len(what.parts) > 0 {
		s.count(what, what.parts[0])
	}
	if what.isLeftOut {
		s.run.leftOut++
	}
	if what.said != "" {
		s.run.sayings[what.said]++
	}
}

// Drops all notes except those of the last events.
func (s *stream) forgetNotes() {
	if len(s.notes) > 2*keptNotes {
		for number := range s.notes {
			if number+keptNotes < s.number {
				delete(s.notes, number)
			}
		}
	}
}

// Counts the event of a thread.
func (s *stream) count(what *happening, one part) {
	if one.call != nil {
		key := one.call.words[0]
		s.run.calls++
		s.run.overlap += uint64(len(s.open))
		s.open[one.process] = openCall{one.call, s.run.tally.begin(what.kind, key)}
		if writesKey(what.kind) {
			if s.writers[key] > 0 {
				s.run.met[key] = true
			}
			s.writers[key]++
		}
		return
	}
	it := s.open[one.process]
	delete(s.open, one.process)
	key := it.call.words[0]
	s.run.tally.end(what.kind, key, what.said, it.stored)
	if writesKey(what.kind) && one.answer != "" {
		if s.writers[key]--; s.writers[key] == 0 {
			delete(s.writers, key)
		}
	}
}

// Ends the stream.
func (s *stream) end() {
	s.isEnded.Store(true)
	<-s.done
}

// A crew is the threads of a run, and a connection of the driver's own. After a round, `contents` is what the map holds.
type crew struct {
	options    *options
	stamps     atomic.Uint64
	workers    []*worker
	connection functions
	close      func()
	made       Map
	contents   map[uint64]uint64
	from       uint64 // each put has a value of its own, which was not in the map before
	puts       uint64 // of the driver's own
}

func newCrew(o *options) *crew {
	c := &crew{options: o, from: 1}
	var locks []keyLock
	if o.void == "lock" {
		locks = make([]keyLock, o.keys)
	}
	for number := uint64(0); number < o.threads; number++ {
		c.workers = append(c.workers, &worker{number: number, options: o, stamps: &c.stamps, locks: locks, sayings: map[string]uint64{},
			called: map[string]uint64{}})
	}
	return c
}

// Each thread opens a connection to a map.
func (c *crew) open(m Map) {
	c.made = m
	c.each(func(w *worker) {
		if w.broken != nil {
			w.wrongTimes += w.broken.times
		}
		w.open(m)
	})
	connection, closing := connectionOf(m)
	c.connection, c.close = functionsOf(connection), closing
}

// Lets each worker do its part, all at once. If one goes wrong, the run ends.
func (c *crew) each(part func(*worker)) {
	var all sync.WaitGroup
	var missing atomic.Int64
	missing.Store(int64(len(c.workers)))
	wrongs := make([]interface{}, len(c.workers))
	all.Add(len(c.workers))
	for i, one := range c.workers {
		i, one := i, one
		go func() {
			defer all.Done()
			defer func() {
				if wrongs[i] = recover(); wrongs[i] != nil {
					if _, is := wrongs[i].(stop); !is {
						buffer := make([]byte, 4096)
						wrongs[i] = stop{badWords, fmt.Sprint(wrongs[i], "\n", string(buffer[:runtime.Stack(buffer, false)]))}
					}
				}
			}()
			missing.Add(-1)
			for times := 0; missing.Load() > 0; times++ {
				if times%1024 == 1023 {
					runtime.Gosched()
				}
			}
			part(one)
		}()
	}
	all.Wait()
	for _, wrong := range wrongs {
		if wrong != nil {
			fail(wrong.(stop).status, "%s: %s", c.options.name, wrong.(stop).line)
		}
	}
}

// A round: its events, with gets of all keys after those of the threads.
func (c *crew) round(t task) []event {
	c.each(func(w *worker) { w.run(t) })
	if c.options.isReopened {
		c.reopen()
	}
	var events []event
	for _, one := range c.workers {
		events = append(events, one.log...)
	}
	return append(events, c.rest(t.round)...)
}

// Gets of all keys, the last calls of a round, and what the map then holds. If a get does not report the value, the key is written.
func (c *crew) rest(number uint64) []event {
	var events []event
	c.contents = map[uint64]uint64{}
	for key := uint64(0); key < c.options.keys; key++ {
		said, m := c.askAtRest(&events, "get", key)
		isKnown, isThere, holds, kind := m != nil && said.tells(), said.word == "told", said.value, "get"
		if !isKnown && !isOneOf(said.word, "refused", "unknown") {
			if kind, holds = c.writeOf(key, number); kind == "del" {
				said, _ = c.askAtRest(&events, kind, key)
			} else if kind == "put" {
				said, _ = c.askAtRest(&events, kind, key, holds)
			}
			isKnown, isThere = kind != "get" && !isOneOf(said.word, "refused", "unknown"), kind == "put"
		}
		if !isKnown {
			fail(badWords, "%s: %s of %d said %s at rest: the run has to know what the key holds", c.options.name, kind, key, said.word)
		}
		if isThere {
			c.contents[key] = holds
		}
	}
	return events
}

// The function after which it is known what a key holds: a put of a new value or, at each second key, a del. For a cache it is a del. It is get if
// the map has neither.
func (c *crew) writeOf(key, number uint64) (string, uint64) {
	isPut, isDel := c.connection["put"] != nil, c.connection["del"] != nil
	if isDel && (!isPut || c.options.cache != "" || (key+number)%2 == 1) {
		return "del", 0
	}
	if !isPut {
		return "get", 0
	}
	c.puts++
	return "put", c.from + c.puts*(c.options.threads+1) + c.options.threads
}

// Asks a function at rest: again if it is refused, and a get also if nobody knows. The answer is noted unless it reports nothing.
func (c *crew) askAtRest(events *[]event, kind string, words ...uint64) (said Said, m *made) {
	said = Refused
	var begin, end uint64
	for i := 0; i < 1000 && (said.word == "refused" || said.word == "unknown" && kind == "get"); i++ {
		begin = c.stamps.Add(1)
		said = c.connection.ask(c.options, kind, words...)
		end = c.stamps.Add(1)
	}
	m = c.options.recorded(kind, words, said, nil)
	if m != nil && m.answer != "" {
		called := map[bool]string{true: "rest", false: kind}[kind == "get"]
		*events = append(*events, eventsOf(begin, end, int(c.options.threads), 0, called, said.word, m)...)
	}
	return said, m
}

// Closes all connections.
func (c *crew) closeAll() {
	for _, one := range c.workers {
		if one.close != nil {
			one.close()
			one.close = nil
		}
	}
	if c.close != nil {
		c.close()
		c.close = nil
	}
}

// Closes the map after its last use.
func (c *crew) end() {
	c.closeAll()
	if c.made != nil {
		forget(c.made)
	}
	c.made = nil
}

// Closes the map, at rest, and opens it again.
func (c *crew) reopen() {
	c.closeAll()
	defer func() {
		if met := recover(); met != nil {
			if it, is := met.(stop); is {
				panic(it)
			}
			fail(badWords, "%s: reopen: %v", c.options.name, met)
		}
	}()
	closed := c.made
	c.made = nil
	made := closed.(interface{ Reopen() Map }).Reopen()
	if made == nil {
		fail(badWords, "%s: Reopen returned nothing; it has to return the map", c.options.name)
	}
	c.open(made)
}

// Histories

// A round as a history, and what its threads met.
type round struct {
	start                    map[uint64]uint64
	events                   []event
	pending                  []*call
	met                      map[uint64]bool
	numbers                  map[[2]int]int // each thread, and each of its lives, and who makes calls on behalf of one, is a process
	before                   int
	calls, overlap, leftOuts uint64
	atStart, nobody          string
}

// Calls from earlier rounds that have no answer come first.
func newRound(events []event, start map[uint64]uint64, before []*call, t *tally) *round {
	r := &round{start: start, met: map[uint64]bool{}, numbers: map[[2]int]int{}, before: len(before), atStart: "at the start", nobody: "nobody"}
	for i, one := range before {
		r.events = append(r.events, event{call: one, process: i})
	}
	sort.SliceStable(events, func(i, j int) bool { return events[i].stamp < events[j].stamp })
	r.order(events)
	r.measure(t)
	return r
}

func (r *round) number(who [2]int) int {
	number, is := r.numbers[who]
	if !is {
		number = r.before + len(r.numbers)
		r.numbers[who] = number
	}
	return number
}

// The events of the threads. The further calls of a call get processes that are free. If there are none, or too many calls, the call is left out with
// its further calls.
func (r *round) order(events []event) {
	own, calls := map[[2]int]bool{}, mostCalls-r.before
	for _, one := range events {
		own[[2]int{one.thread, one.life}] = true
		if one.call != nil {
			calls--
		}
	}
	room, madeUp := processes-r.before-len(own), 0
	var free [][2]int
	helping, isLeftOut := map[[2]int][][2]int{}, map[[2]int]bool{}
	for _, one := range events {
		who := [2]int{one.thread, one.life}
		if one.call == nil && isLeftOut[who] {
			delete(isLeftOut, who)
			continue
		}
		if one.call != nil {
			for len(free) < len(one.beside) && madeUp < room {
				free = append(free, [2]int{-1, madeUp})
				madeUp++
			}
			if len(one.beside) > len(free) || len(one.beside) > calls {
				isLeftOut[who] = true
				r.leftOuts++
				continue
			}
			calls -= len(one.beside)
			rest := len(free) - len(one.beside)
			helping[who] = append([][2]int{}, free[rest:]...)
			free = free[:rest]
		}
		one.process = r.number(who)
		r.events = append(r.events, one)
		for i, helper := range helping[who] {
			each := event{process: r.number(helper), call: one.beside[i].call, note: one.beside[i].note}
			if one.call == nil {
				each = event{process: r.number(helper), answer: one.beside[i].answer}
			}
			r.events = append(r.events, each)
		}
		if one.call == nil {
			free = append(free, helping[who]...)
			delete(helping, who)
		}
	}
}

// How many calls were open when another began, at which keys two writers met, and which changes may still come. A call without an answer does not
// count as overlapped.
func (r *round) measure(t *tally) {
	last := map[int]int{}
	for i, one := range r.events {
		if one.call != nil {
			last[one.process] = i
		} else {
			r.events[last[one.process]].isAnswered = true
		}
	}
	open, stored := map[int]event{}, map[int]uint64{}
	for _, one := range r.events {
		if one.call == nil {
			if one.kind != "" {
				t.end(one.kind, open[one.process].call.words[0], one.said, stored[one.process])
			}
			delete(open, one.process)
			continue
		}
		for _, other := range open {
			if one.kind != "" && other.kind != "" && other.isAnswered {
				r.overlap++
			}
			if writesKey(one.kind) && writesKey(other.kind) && one.call.words[0] == other.call.words[0] {
				r.met[one.call.words[0]] = true
			}
		}
		if one.kind != "" {
			r.calls++
			stored[one.process] = t.begin(one.kind, one.call.words[0])
		}
		open[one.process] = one
	}
	for _, one := range open {
		if !r.tells(one.call) {
			r.pending = append(r.pending, one.call)
		}
	}
}

// Whether an answer reports what a call puts. Then the call was done.
func (r *round) tells(one *call) bool {
	value := strconv.FormatUint(one.words[len(one.words)-1], 10)
	for _, each := range r.events {
		if one.name != "remove" && (each.answer == value || strings.Contains(each.answer, ","+value+"]")) {
			return true
		}
	}
	return false
}

// The pairs by rising keys.
func sorted(start map[uint64]uint64) (pairs [][2]uint64) {
	for key, value := range start {
		pairs = append(pairs, [2]uint64{key, value})
	}
	sort.Slice(pairs, func(i, j int) bool { return pairs[i][0] < pairs[j][0] })
	return pairs
}

// A history as a round, as far as the report needs it.
func roundOf(text string) *round {
	var whole struct {
		Events []struct {
			Invoke  []interface{}
			Process int
		}
		Start [][2]uint64
	}
	decoder := json.NewDecoder(strings.NewReader(text))
	decoder.UseNumber()
	if err := decoder.Decode(&whole); err != nil {
		fail(badFile, "follow: %s", err)
	}
	r := &round{start: map[uint64]uint64{}, atStart: "before these calls", nobody: "none of these calls"}
	for _, one := range whole.Events {
		read := event{process: one.Process}
		if len(one.Invoke) > 0 {
			read.call = &call{name: fmt.Sprint(one.Invoke[0])}
			for _, each := range one.Invoke[1:] {
				word, _ := strconv.ParseUint(fmt.Sprint(each), 10, 64)
				read.call.words = append(read.call.words, word)
			}
		}
		r.events = append(r.events, read)
	}
	for _, pair := range whole.Start {
		r.start[pair[0]] = pair[1]
	}
	return r
}

func (r *round) text() string {
	version, texts := 1, make([]string, len(r.events))
	if len(r.start) > 0 {
		version = 2
	}
	for i, one := range r.events {
		if one.note != "" {
			texts[i] = fmt.Sprintf(`{"invoke":%s,"note":"%s","process":%d}`, one.call.text(), one.note, one.process)
			version = 3
		} else if one.call != nil {
			texts[i] = fmt.Sprintf(`{"invoke":%s,"process":%d}`, one.call.text(), one.process)
		} else {
			texts[i] = fmt.Sprintf(`{"answer":%s,"process":%d}`, one.answer, one.process)
		}
		if isOneOf(one.answer, `"done"`, `"found"`, `"other"`) {
			version = 3
		} else if one.call != nil && one.call.name == "replace" && version == 1 {
			version = 2
		}
	}
	begin := `{"events":[` + strings.Join(texts, ",") + `]`
	if version > 1 {
		begin += `,"start":` + pairsText(sorted(r.start))
	}
	return fmt.Sprintf("%s,\"version\":%d}\n", begin, version)
}

// The pairs of an answer, or none if it is not a list of pairs.
func pairsOf(answer string) (pairs [][2]uint64) {
	numbers := strings.FieldsFunc(answer, func(one rune) bool { return one < '0' || one > '9' })
	for i := 1; i < len(numbers) && answer[0] == '['; i += 2 {
		key, _ := strconv.ParseUint(numbers[i-1], 10, 64)
		value, _ := strconv.ParseUint(numbers[i], 10, 64)
		pairs = append(pairs, [2]uint64{key, value})
	}
	return pairs
}

// Whether all its keys are below keys and all its calls have answers. Then it may be judged together with other rounds.
func (r *round) isApart(keys uint64) bool {
	calls := 0
	for key := range r.start {
		if key >= keys {
			return false
		}
	}
	for _, one := range r.events {
		if one.call != nil {
			calls++
		}
		if one.call != nil && one.call.words[0] >= keys {
			return false
		}
		for _, pair := range pairsOf(one.answer) {
			if pair[0] >= keys {
				return false
			}
		}
	}
	return 2*calls == len(r.events)
}

// Rounds as one history, in which the keys of each are moved up. It has an order if and only if each round has one, since linearizability is
// local: a call says nothing of keys that it does not touch (Herlihy and Wing, 1990).
func together(rounds []waiting, keys uint64) string {
	var start [][2]uint64
	var texts []string
	for i, each := range rounds {
		by := uint64(i) * keys
		for _, pair := range sorted(each.one.start) {
			start = append(start, [2]uint64{pair[0] + by, pair[1]})
		}
		for _, one := range each.one.events {
			if one.call == nil {
				answer := one.answer
				if answer[0] == '[' {
					pairs := pairsOf(answer)
					for j := range pairs {
						pairs[j][0] += by
					}
					answer = pairsText(pairs)
				}
				texts = append(texts, fmt.Sprintf(`{"answer":%s,"process":%d}`, answer, one.process))
				continue
			}
			moved := &call{one.call.name, append([]uint64{}, one.call.words...)}
			moved.words[0] += by
			if one.call.name == "scan" && one.call.words[1] >= keys {
				moved.words[1] = keys - 1
			}
			if one.call.name == "scan" {
				moved.words[1] += by
			}
			texts = append(texts, fmt.Sprintf(`{"invoke":%s,"process":%d}`, moved.text(), one.process))
		}
	}
	return fmt.Sprintf("{\"events\":[%s],\"start\":%s,\"version\":3}\n", strings.Join(texts, ","), pairsText(start))
}

// A tally is how often gets found a value, and how often a key was lost. A key is lost if nothing is found although a put of it was answered, and no
// delete has begun since.
type tally struct {
	hits, misses, losses, clock uint64
	stored, deletes, deleted    map[uint64]uint64 // when a put ended; open deletes; when a delete began or ended last
}

// Begins with a new map.
func (t *tally) forget() {
	t.stored, t.deletes, t.deleted = map[uint64]uint64{}, map[uint64]uint64{}, map[uint64]uint64{}
}

// When the call begins.
func (t *tally) begin(kind string, key uint64) uint64 {
	t.clock++
	if isOneOf(kind, "del", "pop_first") {
		delete(t.stored, key)
		t.deletes[key]++
		t.deleted[key] = t.clock
	}
	return t.clock
}

func (t *tally) end(kind string, key uint64, said string, begun uint64) {
	t.clock++
	switch {
	case kind == "get" && said == "none":
		t.misses++
	case kind == "get" && isOneOf(said, "told", "found"):
		t.hits++
	}
	stored, is := t.stored[key]
	if said == "none" && isOneOf(kind, "get", "put", "replace", "put_if_absent", "rest") && is && stored < begun {
		t.losses++
		delete(t.stored, key)
	}
	isDone := kind == "put" && !isOneOf(said, "refused", "unknown") || kind == "put_if_absent" && said == "none" || kind == "replace" && said == "done"
	if isOneOf(kind, "del", "pop_first") {
		t.deleted[key] = t.clock
		if said != "unknown" {
			t.deletes[key]--
		}
	} else if isDone && t.deletes[key] == 0 && t.deleted[key] < begun {
		t.stored[key] = t.clock
	}
}

// The program bench.
type program struct {
	path     string
	budget   uint64
	answered map[bool]bool // of judge, and of what else there is
}

func newProgram(o *options) *program {
	path := o.bench
	if path == "" {
		path = os.Getenv("POTZENDAI_BENCH")
	}
	if info, err := os.Stat("bench"); path == "" && err == nil && info.Mode().IsRegular() {
		path = "./bench"
	} else if path == "" {
		path = "bench"
	}
	p := &program{path, o.budget, map[bool]bool{}}
	if o.isStream {
		p.ask("follow", "", o.budget)
	} else {
		p.ask("judge", `{"events":[],"version":1}`+"\n", o.budget)
	}
	return p
}

// Returns the program that runs a command. After the repository's own bench has answered, this is the program that bench built last. For bench itself
// takes as long as ten rounds to see that nothing has changed.
func (p *program) at(command string) string {
	path, newest := p.path, time.Time{}
	if filepath.Base(path) != "bench" || !strings.Contains(path, "/") {
		return path
	}
	for _, name := range []string{"bench_judge", "bench_histories", "bench"} {
		built, _ := filepath.Abs(filepath.Join(filepath.Dir(p.path), "crates", name, "out", name))
		_, wanting := os.Stat(built)
		found, err := os.Stat(filepath.Join(filepath.Dir(built), "built"))
		does := command == "judge" || name != "bench_judge"
		if err == nil && wanting == nil && does && p.answered[command == "judge"] && found.ModTime().After(newest) {
			path, newest = built, found.ModTime()
		}
	}
	return path
}

// The verdict; if it is undecided, it is asked again at ten times the budget.
func (p *program) judge(text string) int {
	status, _ := p.askTwice("judge", text)
	return status
}

func (p *program) askTwice(command, text string) (int, string) {
	status, report := p.ask(command, text, p.budget)
	if status == undecided {
		return p.ask(command, text, p.more())
	}
	return status, report
}

// The answer to a question, or why there is none.
func (p *program) tried(command, text string) (report string, wrong *stop) {
	defer func() {
		if met := recover(); met != nil {
			it, is := met.(stop)
			if !is {
				panic(met)
			}
			wrong = &it
		}
	}()
	_, report = p.askTwice(command, text)
	return report, nil
}

// The budget of a question that is asked again.
func (p *program) more() uint64 {
	if p.budget > 100000 {
		return 1000000
	}
	return 10 * p.budget
}

func (p *program) ask(command, text string, budget uint64) (int, string) {
	asked := exec.Command(p.at(command), command, "--budget", strconv.FormatUint(budget, 10))
	var out bytes.Buffer
	asked.Stdin, asked.Stdout, asked.Stderr = strings.NewReader(text), &out, os.Stderr
	return p.checked(command, asked.Run(), asked, out.String()), out.String()
}

// The status, if the program has ended with a report.
func (p *program) checked(command string, err error, asked *exec.Cmd, answer string) int {
	var ended *exec.ExitError
	if err != nil && !errors.As(err, &ended) {
		fail(badFile, "%s: %s", p.path, err)
	}
	status := asked.ProcessState.ExitCode()
	if status < yes || status > badFile {
		fail(badFile, "%s %s: status %d", p.path, command, status)
	}
	if status > undecided {
		fail(status, "%s %s: status %d", p.path, command, status)
	}
	report, _, _ := strings.Cut(answer, "\n")
	isFile := command == "draw" || command == "page"
	if !isFile && !strings.HasSuffix(report, `"verdict":"`+verdicts[status]+`"}`) {
		fail(badFile, "%s %s: status %d without its verdict", p.path, command, status)
	}
	p.answered[command == "judge"] = true
	return status
}

// A run

// A run has rounds at a new map. Each begins with what the one before has left: the pairs, and calls without an answer that may still take effect.
type run struct {
	counts
	options                        *options
	make                           func() Map
	program                        *program
	met                            map[uint64]bool
	began                          time.Time
	undecideds, helped, wrongTimes uint64 // the last two: further calls on behalf of others; how often a broken map went wrong
	waiting                        []waiting
	waitingCalls                   uint64
	waitsSince                     time.Time
	failed                         *round
	cut                            []string
	report                         string
	notes                          map[uint64]string
	kept                           []byte // of a stream
}

// What is counted, up to the end of a round.
type counts struct {
	rounds, calls, overlap, leftOut uint64
	sayings, called                 map[string]uint64
	tally                           tally
}

// A round that is not judged yet.
type waiting struct {
	one    *round
	counts counts
}

// Rounds from this number on, until one has no order, or the time is over; or one stream.
func newRun(o *options, make func() Map, p *program, number uint64) *run {
	r := &run{options: o, make: make, program: p, met: map[uint64]bool{}, began: time.Now()}
	r.sayings = map[string]uint64{}
	atomic.StoreUint64(&yields, o.yields)
	hasPoints.Store(false)
	c := newCrew(o)
	defer c.end()
	r.open(c)
	defer func() {
		for _, one := range c.workers {
			r.wrongTimes += one.wrongTimes
			if one.broken != nil {
				r.wrongTimes += one.broken.times
			}
		}
	}()
	if o.isStream {
		r.follow(c)
		r.called = calledBy(c.workers)
		return r
	}
	var pending []*call
	for r.failed == nil && !r.isOver() {
		if r.rounds > 0 && o.fresh > 0 && r.rounds%o.fresh == 0 {
			c.end()
			r.open(c)
			pending = nil
		}
		lives := (processes - 1 - len(pending)) / int(o.threads)
		if lives == 0 {
			r.cut = append(r.cut, fmt.Sprintf("%s: calls without an answer leave no room for others: %d", o.name, len(pending)))
			break
		}
		doubtful := map[uint64]bool{}
		for _, one := range pending {
			doubtful[one.words[0]] = true
		}
		start := c.contents
		one := newRound(c.round(task{number + r.rounds, lives, start, doubtful, c.from}), start, pending, &r.tally)
		r.take(one, c.workers)
		pending = one.pending
	}
	r.judgeWaiting()
	return r
}

// Begins with a new map.
func (r *run) open(c *crew) {
	c.open(r.make())
	c.rest(0)
	for _, value := range c.contents {
		if value >= c.from {
			c.from = value + 1
		}
	}
	r.tally.forget()
}

// How often workers called each function.
func calledBy(workers []*worker) map[string]uint64 {
	called := map[string]uint64{}
	for _, each := range workers {
		for kind, count := range each.called {
			called[kind] += count
		}
	}
	return called
}

// One stream, until it has no order, or the time is over.
func (r *run) follow(c *crew) {
	s := newStream(r, &c.stamps, c.contents)
	timer := time.AfterFunc(time.Duration(r.options.seconds)*time.Second, func() { s.state.CompareAndSwap(running, over) })
	defer timer.Stop()
	func() {
		defer s.end()
		c.each(func(w *worker) {
			defer func() {
				if wrong := recover(); wrong != nil {
					s.state.Store(failed)
					panic(wrong)
				}
			}()
			w.stream, w.process = s, int(w.number)
			w.run(task{0, streamProcesses, c.contents, nil, c.from})
		})
	}()
	if s.wrong != nil {
		panic(s.wrong)
	}
	r.conclude(s)
}

// What the verdict on a stream says. A stream that was cut off gets no yes.
func (r *run) conclude(s *stream) {
	r.report, r.kept, r.notes = s.answer.String(), s.kept, s.notes
	isCut := s.state.Load() == failed
	if s.status == yes && r.program != nil {
		isCut = isCut || !strings.HasPrefix(r.report, fmt.Sprintf(`{"calls":%d,`, r.calls+r.helped))
	}
	switch {
	case s.status == yes && isCut:
		fail(badFile, "%s: the stream was cut off", r.options.name)
	case s.status == no:
		r.failed = &round{}
	case s.status == undecided:
		r.undecideds++
	}
	if s.nextProcess() >= streamProcesses {
		r.cut = append(r.cut, fmt.Sprintf("%s: calls without an answer leave no room for others", r.options.name))
	}
}

func (r *run) take(one *round, workers []*worker) {
	r.rounds++
	r.calls += one.calls
	r.overlap += one.overlap
	r.leftOut += one.leftOuts
	for key := range one.met {
		r.met[key] = true
	}
	r.sayings, r.called = map[string]uint64{}, calledBy(workers)
	for _, each := range workers {
		for word, count := range each.sayings {
			r.sayings[word] += count
		}
	}
	if r.program == nil {
		if _, err := os.Stdout.WriteString(one.text()); err != nil {
			fail(badFile, "standard output: a history was not written")
		}
		return
	}
	calls := uint64(len(one.events) / 2)
	isApart := calls <= batchCalls && one.isApart(r.options.keys)
	if len(r.waiting) > 0 && (!isApart || calls+r.waitingCalls > mostCalls) {
		r.judgeWaiting()
	}
	if r.failed != nil {
		return
	}
	if len(r.waiting) == 0 {
		r.waitingCalls, r.waitsSince = 0, time.Now()
	}
	r.waitingCalls += calls
	r.waiting = append(r.waiting, waiting{one, r.counts})
	if len(r.waiting) == batchRounds || time.Since(r.waitsSince) > time.Second || r.rounds == 1 || !isApart {
		r.judgeWaiting()
	}
}

// Judges the rounds that wait: first all together, and each on its own if that is not a yes. After a no, only what was counted up to its end counts.
func (r *run) judgeWaiting() {
	all := r.waiting
	r.waiting = nil
	if len(all) > 1 {
		if status, _ := r.program.ask("judge", together(all, r.options.keys), r.program.budget); status == yes {
			return
		}
	}
	for _, each := range all {
		switch r.program.judge(each.one.text()) {
		case no:
			r.failed, r.counts = each.one, each.counts
			return
		case undecided:
			r.undecideds++
		}
	}
}

// At least one round is made.
func (r *run) isOver() bool {
	r.progress()
	o := r.options
	return r.rounds > 0 && (o.rounds > 0 && r.rounds >= o.rounds || time.Since(r.began).Seconds() >= float64(o.seconds))
}

// Each second a line on a terminal says how far the run is.
func (r *run) progress() {
	o, seconds := r.options, time.Since(r.began).Seconds()
	if o.shows && time.Since(o.shown) > time.Second && r.calls > 0 {
		all := uint64(0)
		for _, count := range r.sayings {
			all += count
		}
		o.shown = time.Now()
		fmt.Fprintf(os.Stderr, "%s, %.0f a second, overlap %.1f a call, %.1f%% refused, two writers met on %d of %s\n",
			counted(r.calls, "call"), float64(r.calls)/seconds, float64(r.overlap)/float64(r.calls),
			100*float64(r.sayings["refused"])/math.Max(float64(all), 1), len(r.met), counted(o.keys, "key"))
	}
}

// A number with its noun.
func counted(count uint64, noun string) string {
	if count == 1 {
		return "1 " + noun
	}
	if strings.HasSuffix(noun, "s") {
		noun += "e"
	}
	return fmt.Sprintf("%d %ss", count, noun)
}

// The verdict, and the counts on which it is based.
func (r *run) summary(verdict string) string {
	said := []string{}
	for _, word := range sayings {
		if r.sayings[word] > 0 {
			said = append(said, fmt.Sprintf("%d %s", r.sayings[word], word))
		}
	}
	undecideds, rounds := "", counted(r.rounds, "round")+", "
	if r.options.isStream {
		rounds = ""
	}
	if r.undecideds > 0 {
		undecideds = fmt.Sprintf("; %d undecided", r.undecideds)
	}
	text := fmt.Sprintf("%s: %s%s in %.1f seconds, overlap %.2f a call: %s%s", verdict, rounds, counted(r.calls, "call"),
		time.Since(r.began).Seconds(), float64(r.overlap)/math.Max(float64(r.calls), 1), strings.Join(said, ", "), undecideds)
	if t := &r.tally; r.options.cache != "" {
		if r.options.cache == "late" { // such a miss may be of a write that has not appeared yet, and is no loss
			text += fmt.Sprintf("; %s, %s", counted(t.hits, "hit"), counted(r.called["get"]-t.hits, "miss"))
		} else {
			text += fmt.Sprintf("; %s, %s, %s", counted(t.hits, "hit"), counted(t.misses, "miss"), counted(t.losses, "loss"))
		}
	}
	if strings.HasPrefix(verdict, "no") && verdict != "not judged" {
		return text
	}
	return strings.Join(append([]string{text}, r.cautions()...), "; ")
}

// Why a yes of this run says little.
func (r *run) cautions() (said []string) {
	all, t, gets, isCache := uint64(0), &r.tally, r.called["get"], r.options.cache != ""
	for _, count := range r.sayings {
		all += count
	}
	if 2*r.sayings["refused"] > all {
		said = append(said, "most calls were refused: a yes says little")
	}
	switch {
	case t.hits == 0 && isCache:
		said = append(said, "no get hit: a yes says nothing")
	case t.hits == 0 && gets > 0:
		said = append(said, "no get found a value: a yes says little")
	case isCache && 20*t.hits < gets:
		said = append(said, fmt.Sprintf("%s in %s gets: a yes says little", counted(t.hits, "hit"), grouped(gets)))
	}
	if isCache && t.losses == 0 && r.options.cache != "late" {
		said = append(said, "no key was lost: eviction was not tested")
	}
	if r.leftOut > 0 {
		said = append(said, counted(r.leftOut, "scan")+" without some of the keys left out")
	}
	if float64(r.overlap) < 0.05*float64(r.calls) {
		said = append(said, "overlap below 0.05: the threads hardly met, and a yes says little: call point() in the map, and run with --yield 200")
	}
	if r.options.yields > 0 && !hasPoints.Load() {
		said = append(said, "--yield acted only between calls, since the map called no point()")
	}
	return said
}

// A number with commas.
func grouped(number uint64) string {
	text := strconv.FormatUint(number, 10)
	for i := len(text) - 3; i > 0; i -= 3 {
		text = text[:i] + "," + text[i:]
	}
	return text
}

// The smallest run that failed, of some tries with half of the calls or keys, or a thread less. Threads interleave as they will. If calls have no
// answer, nothing smaller is tried, since they may still take effect.
func (r *run) smaller() *run {
	best, until, tries := r, time.Now().Add(5*time.Second), 0
	if r.sayings["unknown"] > 0 {
		return best
	}
	for how := 0; how < 3; how++ {
		less := best.options.less(how)
		for i := 0; less != nil && i < 6 && tries < 60 && time.Now().Before(until); i++ {
			tries++
			if again := newRun(less, r.make, r.program, r.rounds-1); again.failed != nil {
				best, how = again, -1
				break
			}
		}
	}
	return best
}

// A no in words

func saidPairs(pairs []interface{}) string {
	texts := []string{}
	for _, pair := range pairs {
		texts = append(texts, fmt.Sprintf("%v: %v", pair.([]interface{})[0], pair.([]interface{})[1]))
	}
	if len(texts) == 0 {
		return "nothing"
	}
	return strings.Join(texts, ", ")
}

func saidAnswer(answer interface{}) string {
	if pairs, is := answer.([]interface{}); is {
		return saidPairs(pairs)
	}
	said, is := map[interface{}]string{nil: "none", "done": "that it was done", "found": "that there was a value", "other": "another value",
		"refused": "that it was refused", "open": "nothing"}[answer]
	if !is {
		said = fmt.Sprint(answer)
	}
	return said
}

// What a call was answered, and who put that, or that its answer is left out of the report.
func saidAnswered(r *round, answer interface{}) string {
	if answer == "left out" {
		return ", whatever its answer"
	}
	return ", answered " + saidAnswer(answer) + saidWriter(r, answer)
}

// The first line of a report, with `..` in place of a long list of calls.
func saidVerdict(line string) string {
	return regexp.MustCompile(`"calls":\[[^\]]{80,}\]`).ReplaceAllString(line, `"calls":[..]`)
}

func saidCall(call interface{}) string {
	words, is := call.([]interface{})
	if !is || len(words) < 2 {
		fail(badFile, "explain: %v is no call", call)
	}
	switch words[0] {
	case "insert":
		return fmt.Sprintf("put %v at %v", words[2], words[1])
	case "replace":
		return fmt.Sprintf("replace %v at %v by %v", words[2], words[1], words[3])
	case "scan":
		return fmt.Sprintf("scan from %v to %v", words[1], words[2])
	}
	return fmt.Sprintf("%v %v", words[0], words[1])
}

// A call as a report has it, and in words.
func (c *call) list() []interface{} {
	words := []interface{}{c.name}
	for _, word := range c.words {
		words = append(words, word)
	}
	return words
}

func (c *call) said() string { return saidCall(c.list()) }

// The call of an event as it was made, if the history has another one.
func (r *round) noteOf(number int64) string {
	if int(number) < len(r.events) {
		return r.events[number].note
	}
	return ""
}

// A call as it was made.
func saidMade(r *round, number int64, call interface{}) string {
	if note := r.noteOf(number); note != "" {
		made, _, _ := strings.Cut(note, ":")
		return strings.Replace(made, "answered none", "which found none", 1) + ","
	}
	return saidCall(call)
}

// The event of a call's answer, or the end if it has none.
func (r *round) lastEvent(invoked int) int {
	for i := invoked + 1; i < len(r.events); i++ {
		if r.events[i].process == r.events[invoked].process {
			return i
		}
	}
	return len(r.events)
}

// Whether two calls have a key in common.
func (c *call) meets(other *call) bool {
	ends := func(c *call) (uint64, uint64) {
		if c.name == "scan" {
			return c.words[0], c.words[1]
		}
		return c.words[0], c.words[0]
	}
	low, high := ends(c)
	from, to := ends(other)
	return low <= to && from <= high
}

// The other calls that were open on the keys of these.
func saidOpen(r *round, shown map[int]bool, numbers []int) []string {
	var said []string
	for i, one := range r.events {
		if one.call == nil || shown[i] {
			continue
		}
		for _, of := range numbers {
			if of < len(r.events) && r.events[of].call != nil && one.call.meets(r.events[of].call) && i < r.lastEvent(of) && of < r.lastEvent(i) {
				made, events := saidMade(r, int64(i), one.call.list()), saidEvents(r, int64(i), int64(one.process))
				said = append(said, fmt.Sprintf("%s of process %d (%s)", made, one.process, events))
				break
			}
		}
	}
	if len(said) == 0 {
		return nil
	}
	if more := len(said) - openShown; more > 0 {
		said = append(said[:openShown], fmt.Sprintf("and %d more", more))
	}
	return []string{"  also open on the same keys meanwhile: " + strings.Join(said, ", ")}
}

// The events of a call: that of its invocation by a process, and that of its answer if it has one.
func saidEvents(r *round, invoked, process int64) string {
	for i := int(invoked) + 1; i < len(r.events); i++ {
		if r.events[i].process == int(process) {
			return fmt.Sprintf("events %d to %d", invoked, i)
		}
	}
	return fmt.Sprintf("event %d on", invoked)
}

// Who put a value.
func saidWriter(r *round, answer interface{}) string {
	value, is := answer.(json.Number)
	if !is {
		return ""
	}
	for i, one := range r.events {
		if one.call != nil && isOneOf(one.call.name, "insert", "replace") && fmt.Sprint(one.call.words[len(one.call.words)-1]) == value.String() {
			return fmt.Sprintf("; %v is what process %d put (event %d)", value, one.process, i)
		}
	}
	for _, held := range r.start {
		if fmt.Sprint(held) == value.String() {
			return fmt.Sprintf("; %v was there %s", value, r.atStart)
		}
	}
	return fmt.Sprintf("; %v is what %s put", value, r.nobody)
}

// A line of a report; its members show which kind it is.
type reported struct {
	Answer, Would, Start, Call interface{}
	Front, Holds               []interface{}
	Event, Process, Key, Value json.Number
	From                       json.Number
	Verdict                    string
	Put                        *reported
	Next, Puts, Misses         []reported
}

// Who put a value that the few calls read and none of them put.
func saidOrigin(r *round, line reported) string {
	var who []string
	if line.Start == true {
		who = append(who, "what was there "+r.atStart)
	}
	for _, put := range line.Puts {
		who = append(who, fmt.Sprintf("what process %v put (event %v)", put.Process, put.Event))
	}
	if len(who) == 0 {
		who = append(who, fmt.Sprintf("what %s put", r.nobody))
	}
	return fmt.Sprintf("  %v at %v is %s", line.Value, line.Key, strings.Join(who, ", "))
}

// The value of a key from which the few calls have no order. Only an undecided report has such lines.
func saidFrom(line reported) string {
	if line.From == "" {
		return fmt.Sprintf("  from key %v holding nothing", line.Key)
	}
	who := "was there before these calls"
	if line.Put != nil {
		who = fmt.Sprintf("process %v put (event %v)", line.Put.Process, line.Put.Event)
	}
	return fmt.Sprintf("  from key %v holding %v, which %s", line.Key, line.From, who)
}

// Which calls one misses.
func saidMissed(r *round, line reported) string {
	said := ""
	for _, call := range line.Misses {
		event, _ := call.Event.Int64()
		said += fmt.Sprintf("; it misses %s of process %v (event %v)", saidMade(r, event, call.Call), call.Process, call.Event)
	}
	return said
}

// A report of explain in words, and the line with the few calls' history, if there is one. After an undecided there is a line of locate, which is
// skipped.
func saidReport(report string, r *round) (said []string, few string) {
	lines := strings.Split(strings.TrimSpace(report), "\n")
	said = append(said, saidVerdict(lines[0]))
	shown, last, next := map[int]bool{}, []int{}, []int{}
	for _, text := range lines[1:] {
		var line reported
		decoder := json.NewDecoder(strings.NewReader(text))
		decoder.UseNumber()
		if err := decoder.Decode(&line); err != nil {
			fail(badFile, "explain: %s", err)
		}
		if line.Verdict != "" {
			continue
		}
		if len(said) == 1 {
			said = append(said, "these calls have no order, and no other could mend that:")
		}
		event, _ := line.Event.Int64()
		process, _ := line.Process.Int64()
		switch {
		case strings.HasPrefix(text, `{"events"`):
			few = text + "\n"
		case strings.HasPrefix(text, `{"answer"`):
			shown[int(event)], last = true, []int{int(event)}
			made := r.noteOf(event)
			if made == "" {
				made = saidCall(line.Call) + saidAnswered(r, line.Answer)
			}
			said = append(said, fmt.Sprintf("  %-19s process %-3d %s", saidEvents(r, event, process), process, made+saidMissed(r, line)))
		case strings.HasPrefix(text, `{"from"`):
			said = append(said, saidFrom(line))
		case line.Puts != nil:
			said = append(said, saidOrigin(r, line))
		case line.Front != nil && len(line.Front) == 0:
			said = append(said, "  no call of them can come first; the map holds "+saidPairs(line.Holds))
		case line.Front != nil:
			front := strings.ReplaceAll(fmt.Sprint(line.Front), " ", ",")
			said = append(said, "  an order of them gets as far as the events "+front+"; the map then holds "+saidPairs(line.Holds))
		}
		for _, one := range line.Next {
			event, _ := one.Event.Int64()
			next = append(next, int(event))
			said = append(said, fmt.Sprintf("  the call of event %v was answered %s, and would be answered %s%s", one.Event,
				saidAnswer(one.Answer), saidAnswer(one.Would), saidWriter(r, one.Answer)))
		}
	}
	if len(next) == 0 {
		next = last
	}
	return append(said, saidOpen(r, shown, next)...), few
}

// A line of a report, without the values that some replaces of a cache put: those that said that they changed nothing.
func unmarked(line string) string {
	return regexp.MustCompile(`[0-9]{19,20}`).ReplaceAllStringFunc(line, func(found string) string {
		value, err := strconv.ParseUint(found, 10, 64)
		if err != nil || value < ownValues || value == math.MaxUint64 {
			return found
		}
		return "a value that no call puts"
	})
}

// Writes a file of a round, or of a stream, and says its name.
func (r *run) keep(ending, text string) string {
	number := r.rounds
	if number > 0 {
		number--
	}
	path := filepath.Join(r.options.out, fmt.Sprintf("%s-%d-%d%s", r.options.name, r.options.seed, number, ending))
	if err := os.WriteFile(path, []byte(text), 0o644); err != nil {
		return "file: not written: " + path
	}
	return "  file: " + path
}

// Saves the file that the program makes of a history, or says why there is none.
func (r *run) keepMade(command, ending, text string) string {
	made, wrong := r.program.tried(command, text)
	if wrong != nil {
		return "file: not made: " + ending + ": " + wrong.line
	}
	return r.keep(ending, made)
}

// Reports a stream that has no order. If the calls that are left show the fault, their history is explained; otherwise a line says why not. The
// stream so far is saved, unless it is long. The report is saved if it is not shown whole, or if nothing else is saved.
func (r *run) refutedStream() []string {
	report, left, _ := strings.Cut(r.report, "\n")
	said, isWhole := []string{report}, len(report) <= reportShown
	if !isWhole {
		said[0] = report[:reportShown] + ".."
	}
	if left != "" {
		said = append(said, r.shownLeft(left)...)
	} else {
		said = append(said, "the few calls are not shown: "+whyNotFew(report))
	}
	if r.kept != nil {
		said = append(said, r.keep(".jsonl", string(r.kept)))
	} else {
		said = append(said, fmt.Sprintf("the stream is not saved, since it is longer than %d bytes", mostKept))
	}
	if !isWhole || left == "" && r.kept == nil {
		said = append(said, r.keep("-report.json", report+"\n"))
	}
	return append(said, saidAgain+r.options.again(0))
}

// Saves the history of the calls that are left, and a few calls of it that have no order. If these are not found, it saves only the history.
func (r *run) shownLeft(left string) []string {
	explained, wrong := r.program.tried("explain", left)
	if wrong != nil {
		return []string{"the few calls are not shown: " + wrong.line, r.keep(".json", left)}
	}
	if !strings.Contains(explained, "\n{\"answer\":") {
		return []string{fmt.Sprintf("the few calls are not shown: they are not found within a budget of %d", r.program.more()), r.keep(".json", left)}
	}
	return append([]string{saidRenumbered}, r.shown(left, explained, r.noted(roundOf(left)))...)
}

// The calls that a follower still had, with their notes.
func (r *run) noted(left *round) *round {
	var told struct {
		Keys []struct{ Invoked []uint64 }
	}
	report, _, _ := strings.Cut(r.report, "\n")
	if json.Unmarshal([]byte(report), &told) != nil {
		return left
	}
	var invoked []uint64
	isSeen := map[uint64]bool{}
	for _, key := range told.Keys {
		for _, number := range key.Invoked {
			if !isSeen[number] {
				isSeen[number] = true
				invoked = append(invoked, number)
			}
		}
	}
	sort.Slice(invoked, func(i, j int) bool { return invoked[i] < invoked[j] })
	var calls []*event
	for i := range left.events {
		if left.events[i].call != nil {
			calls = append(calls, &left.events[i])
		}
	}
	for i, number := range invoked {
		if len(calls) == len(invoked) {
			calls[i].note = r.notes[number]
		}
	}
	return left
}

// Why no history of few calls follows a no of a stream.
func whyNotFew(report string) string {
	var told struct {
		Keys []struct{ Values []interface{} }
	}
	if err := json.Unmarshal([]byte(report), &told); err != nil {
		fail(badFile, "follow: %s", err)
	}
	most := 0
	for _, key := range told.Keys {
		if len(key.Values) > most {
			most = len(key.Values)
		}
	}
	switch {
	case len(told.Keys) == 0:
		return "no map gives a scan the answer of this event"
	case most == 0:
		return "the call had taken effect by then, and its answer contradicts what it found"
	case most > 1:
		return "a key may have had any of the listed values before the calls \"invoked\""
	}
	return "the calls \"invoked\" may have taken effect in several ways, or they fit no history: they are too many, or too many are open at once"
}

// What a report of explain says of a history, and the files that show it. The words and the picture have the processes and events of the first
// file.
func (r *run) shown(text, report string, one *round) []string {
	lines, few := saidReport(report, one)
	for i := range lines {
		if r.options.cache != "" {
			lines[i] = unmarked(lines[i])
		}
	}
	said := append(lines, r.keep(".json", text))
	if few != "" {
		said = append(said, r.keep("-few.json", few))
	}
	return append(said, r.keepMade("draw", ".svg", text), r.keepMade("page", ".html", text))
}

// A round that has no order: what shows it, and how to repeat it.
func (r *run) refuted() []string {
	if r.options.isStream {
		return r.refutedStream()
	}
	least := r.smaller()
	said := []string{
		fmt.Sprintf("round %d has no order", r.rounds-1),
		fmt.Sprintf("the smallest of some tries that failed: threads %d, keys %d, calls %d", least.options.threads, least.options.keys,
			least.options.calls),
	}
	text := least.failed.text()
	kept := r.keep(".json", text) // before: the part that explains may be built first
	report, wrong := r.program.tried("explain", text)
	if wrong != nil {
		return append(said, kept, "the few calls are not shown: "+wrong.line, saidAgain+r.options.again(r.rounds))
	}
	return append(append(said, r.shown(text, report, least.failed)...), saidAgain+r.options.again(r.rounds))
}

// Words

const usage = `  --seconds N       how long (10, or as long as --rounds take)
  --rounds N        at most N rounds
  --threads N       threads that call the map (4)
  --keys N          keys, from 0 (16; of a stream 1000)
  --hot N           nine calls in ten use one of the first N keys
  --calls N         calls of each thread in a round, or in a stream (200; no limit)
  --seed N          what the calls are drawn from (the clock)
  --mix LIST        shares, such as get=50,put=30,del=10,scan=10; also replace, put_if_absent, floor, ceiling, pop_first
  --void HOW        done: a put or del may answer done; told: it must say the value before; own: one writer for each key remembers
                    what it put; lock: a lock for each key around a get and the put after it (done)
  --scan HOW        snapshot: a scan is of one moment; steps: steps of ceiling (snapshot)
  --yield N         of a thousand points in and between calls, N let another thread run (0)
  --break HOW       makes the map wrong now and then: drop, race, replay, stale, zombie, torn or cas; all: in each of these ways
  --cache [late]    the map is a cache, which may lose any key at any time; late: its writes appear later, so a miss says nothing
  --fresh N         a new map after each N rounds (one map)
  --reopen          the map is closed and opened again after each round
  --stream          one stream, judged while it is recorded, in place of rounds
  --out FOLDER      where files are written (.); -: all histories, or the stream, on standard output, judged by nobody
  --budget N        states that a search may meet (100000); an undecided round is asked again at ten times as many
  --bench PATH      the program (./bench, or on the PATH)`

type options struct {
	name, void, scan, broken, out, bench, cache                      string
	seconds, rounds, threads, keys, hot, calls, seed, yields, budget uint64
	fresh, span                                                      uint64
	shares                                                           map[string]uint64
	shows, isStream, hasVoid, isReopened                             bool
	shown                                                            time.Time
}

func (o *options) total() (sum uint64) {
	for _, share := range o.shares {
		sum += share
	}
	return sum
}

// Options with half of the calls or of the keys, or one thread less; none if that is not possible.
func (o *options) less(how int) *options {
	less := *o
	less.rounds, less.shows = 1, false
	switch how {
	case 0:
		less.calls /= 2
	case 1:
		less.keys /= 2
	default:
		less.threads--
	}
	if less.calls == 0 || less.keys == 0 || less.threads == 0 || o.void == "own" && less.keys < less.threads {
		return nil
	}
	return &less
}

const saidRenumbered = "here and in the files, events and processes have new numbers. The calls are those \"invoked\" above, by rising event:"
const saidAgain = "  again (draws the same calls; threads may interleave otherwise): "

// The options that repeat the draws of a run of this many rounds.
func (o *options) again(rounds uint64) string {
	mix := []string{}
	for _, kind := range kinds {
		if o.shares[kind] > 0 {
			mix = append(mix, fmt.Sprintf("%s=%d", kind, o.shares[kind]))
		}
	}
	text := fmt.Sprintf("%s --seed %d --threads %d --keys %d", o.name, o.seed, o.threads, o.keys)
	if o.hot > 0 {
		text += fmt.Sprintf(" --hot %d", o.hot)
	}
	if o.calls > 0 {
		text += fmt.Sprintf(" --calls %d", o.calls)
	}
	text += " --mix " + strings.Join(mix, ",")
	if o.hasVoid || !o.isStream {
		text += " --void " + o.void
	}
	text += " --scan " + o.scan
	if o.yields > 0 {
		text += fmt.Sprintf(" --yield %d", o.yields)
	}
	if o.cache != "" {
		text += strings.TrimSuffix(" --cache "+o.cache, " now")
	}
	if o.fresh > 0 {
		text += fmt.Sprintf(" --fresh %d", o.fresh)
	}
	if o.isReopened {
		text += " --reopen"
	}
	if o.broken != "" {
		text += " --break " + o.broken
	}
	if o.isStream {
		return text + fmt.Sprintf(" --stream --seconds %d", o.seconds)
	}
	return text + fmt.Sprintf(" --rounds %d", rounds)
}

func readWords(name string, words []string) *options {
	o := &options{name: name, void: "done", scan: "snapshot", out: ".", threads: 4, budget: 100000, shown: time.Now(),
		seed: uint64(time.Now().UnixNano()) % 1000000007}
	info, err := os.Stderr.Stat()
	o.shows = err == nil && info.Mode()&os.ModeCharDevice != 0
	for i := 0; i < len(words); i++ {
		switch next := append(words, "")[i+1]; words[i] {
		case "--stream":
			o.isStream = true
		case "--reopen":
			o.isReopened = true
		case "--cache":
			if o.cache = "now"; next == "late" {
				o.cache = next
				i++
			} else if next != "" && !strings.HasPrefix(next, "--") {
				fail(badWords, "--cache: only late may follow")
			}
		default:
			o.read(words[i], next)
			i++
		}
	}
	return o
}

func (o *options) read(word, text string) {
	for _, one := range []struct {
		name        string
		least, most uint64
		to          *uint64
	}{
		{"--seconds", 1, 1000000000, &o.seconds}, {"--rounds", 1, math.MaxUint64, &o.rounds}, {"--threads", 1, 1024, &o.threads},
		{"--keys", 1, streamKeys, &o.keys}, {"--hot", 1, streamKeys, &o.hot}, {"--calls", 1, math.MaxUint64, &o.calls},
		{"--seed", 0, math.MaxUint64, &o.seed}, {"--yield", 0, 1000, &o.yields}, {"--budget", 1, 1000000, &o.budget},
		{"--fresh", 1, math.MaxUint64, &o.fresh},
	} {
		if one.name == word {
			number, err := strconv.ParseUint(text, 10, 64)
			if err != nil || number < one.least || number > one.most {
				fail(badWords, "%s: a number from %d to %d", word, one.least, one.most)
			}
			*one.to = number
			return
		}
	}
	named := map[string][]string{
		"--void": {"done", "told", "own", "lock"}, "--scan": {"snapshot", "steps"}, "--break": append([]string{"all"}, breaks...),
	}
	if names, is := named[word]; is && !isOneOf(text, names...) {
		fail(badWords, "%s: not one of its names; see --help", word)
	}
	to := map[string]*string{"--void": &o.void, "--scan": &o.scan, "--break": &o.broken, "--out": &o.out, "--bench": &o.bench}[word]
	switch {
	case to != nil:
		*to = text
		o.hasVoid = o.hasVoid || word == "--void"
	case word == "--mix":
		o.shares = readMix(text)
	default:
		fail(badWords, "%s: no such option; see --help", word)
	}
}

func readMix(text string) map[string]uint64 {
	mix := map[string]uint64{}
	for _, part := range strings.Split(text, ",") {
		pair := strings.Split(part+"=", "=")
		share, err := strconv.ParseUint(pair[1], 10, 20)
		if !isOneOf(pair[0], kinds...) || len(pair) != 3 || err != nil {
			fail(badWords, "--mix: shares, such as get=50,put=30,del=10,scan=10")
		}
		mix[pair[0]] = share
	}
	return mix
}

// Whether the functions that a broken map makes wrong are called; for `all`, whether those of one kind are.
func (o *options) isCalled(how string) bool {
	for _, one := range breaks {
		if (how == one || how == "all") && o.shares[broken[one]] > 0 && !(one == "torn" && o.scan == "steps") {
			return true
		}
	}
	return false
}

// Tests that the options fit each other and the functions of the map.
func (o *options) fit(has functions, canReopen bool) {
	isApart, isUsual := o.void == "own" || o.void == "lock", o.shares == nil
	if isUsual {
		o.shares = map[string]uint64{}
	}
	for _, kind := range kinds {
		needed := kind
		if kind == "scan" && o.scan == "steps" {
			if needed = "ceiling"; has[needed] == nil {
				fail(badWords, "--scan: steps need the function ceiling")
			}
		}
		if isUsual && has[needed] != nil && !(kind == "pop_first" && isApart) {
			o.shares[kind] = shares[kind]
		}
		if o.shares[kind] > 0 && has[needed] == nil {
			fail(badWords, "%s: no such function of the map", kind)
		}
	}
	if o.keys == 0 {
		if o.keys = 16; o.isStream {
			o.keys = 1000
		}
	}
	if o.calls == 0 && !o.isStream {
		if o.calls = mostCalls / (o.threads + 2); o.calls > 200 {
			o.calls = 200
		}
	}
	if o.seconds == 0 && o.rounds == 0 {
		o.seconds = 10
	} else if o.seconds == 0 {
		o.seconds = 1000000000
	}
	most := uint64(mostCalls) / (o.threads + 1)
	size := fmt.Sprintf("at most %d with %d threads, since a round has at most %d calls", most, o.threads, mostCalls)
	switch {
	case o.total() == 0:
		fail(badWords, "--mix: no share")
	case o.shares["pop_first"] > 0 && isApart:
		fail(badWords, "pop_first: takes keys of other threads, so not with --void own or lock")
	case o.broken != "" && !o.isCalled(o.broken):
		fail(badWords, "--break: no call that it would break is made")
	case o.hot > o.keys:
		fail(badWords, "--hot: more than there are keys")
	case o.void == "own" && o.keys < o.threads:
		fail(badWords, "--void: own: each thread needs a key")
	case o.cache != "" && o.void == "own":
		fail(badWords, "--cache: not with --void own, since the writer of a key does not see that the key was lost")
	case o.isStream && o.fresh > 0:
		fail(badWords, "--fresh: not with --stream, which is of one map")
	case o.isStream && o.isReopened:
		fail(badWords, "--reopen: not with --stream, which is of one map")
	case o.isReopened && !canReopen:
		fail(badWords, "--reopen: the map has no function Reopen")
	case o.isStream && o.rounds > 0:
		fail(badWords, "--rounds: a stream has no rounds; use --seconds, or --calls for each thread")
	case !o.isStream && o.threads >= processes:
		fail(badWords, "--threads: at most 63 in rounds; --stream has no such limit")
	case !o.isStream && o.keys > most:
		fail(badWords, "--keys: %s, with a get of each key at its end; --stream has no such limit", size)
	case !o.isStream && o.calls > most:
		fail(badWords, "--calls: %s; --stream has no such limit", size)
	}
	o.span = span
	if room := (processes - 1 - o.threads) / o.threads; o.cache != "" && !o.isStream && room < o.span { // each missing key needs a process
		o.span = uint64(math.Max(float64(room), 1))
	}
	o.checkOut()
}

// Tests whether a file can be written into the folder for files: one is written there, and removed.
func (o *options) checkOut() {
	if o.out == "-" {
		return
	}
	file, err := os.CreateTemp(o.out, ".potzendai-*")
	if err == nil {
		file.Close()
		err = os.Remove(file.Name())
	}
	if err != nil {
		var cause *os.PathError
		if errors.As(err, &cause) {
			err = cause.Err
		}
		said := err.Error()
		fail(badFile, "--out: no file can be written into %s: %s", o.out, strings.ToUpper(said[:1])+said[1:])
	}
}

// How often the threads called each function of the map, and which functions it does not have.
func saidCalls(has functions, called map[string]uint64) string {
	calls, missing := []string{}, []string{}
	for _, kind := range kinds {
		if has[kind] != nil {
			calls = append(calls, fmt.Sprintf("%s %d", kind, called[kind]))
		} else {
			missing = append(missing, kind)
		}
	}
	text := "calls: " + strings.Join(calls, ", ")
	if len(missing) > 0 {
		text += "; not there: " + strings.Join(missing, ", ")
	}
	return text
}

// How a run went: its status, the lines to print before the last line, and that line. A run that fails is reported as a stop.
func tested(name string, make func() Map, words []string) (status int, said []string, last string, wrong *stop) {
	defer func() {
		if met := recover(); met != nil {
			it, is := met.(stop)
			if !is {
				it = stop{badFile, fmt.Sprint(met)}
			}
			wrong = &it
		}
	}()
	o := readWords(name, words)
	m := make()
	connection, closing := connectionOf(m)
	has := functionsOf(connection)
	_, canReopen := m.(interface{ Reopen() Map })
	closing()
	forget(m)
	o.fit(has, canReopen)
	var p *program
	if o.out != "-" {
		p = newProgram(o)
	} else {
		signal.Ignore(syscall.SIGPIPE) // if the reader has gone, a write fails and says so
	}
	if o.broken == "all" {
		status, said, last = allBroken(o, make, p, has)
		return status, said, last, nil
	}
	r := newRun(o, make, p, 0)
	calls := saidCalls(has, r.called)
	if r.failed != nil {
		return no, append(r.refuted(), calls), r.summary("no"), nil
	}
	if r.undecideds > 0 || len(r.cut) > 0 || p != nil && o.cache != "" && r.tally.hits == 0 {
		status = undecided
	}
	if p == nil {
		return status, append(r.cut, calls, r.summary("not judged")), "", nil
	}
	if o.broken != "" && status == yes {
		r.cut = append(r.cut, fmt.Sprintf("--break %s: the map was wrong now and then, and these calls did not show it", o.broken))
	}
	return status, append(r.cut, calls), r.summary(verdicts[status]), nil
}

// Each kind of bug that the drawn calls can show has to be refuted. Then the status is that of a no.
func allBroken(o *options, make func() Map, p *program, has functions) (int, []string, string) {
	said, missed, called := []string{}, 0, map[string]uint64{}
	for _, how := range breaks {
		if o.broken = how; !o.isCalled(how) {
			said = append(said, how+": no call that it would break is made")
			continue
		}
		r, verdict := newRun(o, make, p, 0), "no"
		if r.failed == nil {
			verdict = "yes"
			missed++
		} else if r.wrongTimes == 0 {
			verdict = "no of the map itself"
			missed++
		}
		said = append(said, how+": "+r.summary(verdict))
		for kind, count := range r.called {
			called[kind] += count
		}
	}
	said = append(said, saidCalls(has, called),
		"this shows that calls and answers reach the judge; it does not show that threads meet: see the overlap")
	if missed > 0 {
		return yes, said, fmt.Sprintf("yes: %d of the broken maps were not refuted", missed)
	}
	return no, said, "no: each broken map was refuted"
}

// Run is a whole program: it reports how the run went, and returns the status. `make` makes a new and empty map for each run.
func Run(name string, make func() Map, words ...string) int {
	if isOneOf("--help", words...) || isOneOf("-h", words...) {
		return printed(yes, fmt.Sprintf("usage: %s [OPTIONS]\n%s", name, usage))
	}
	status, said, last, wrong := tested(name, make, words)
	if wrong != nil {
		fmt.Fprintln(os.Stderr, wrong.line)
		return wrong.status
	}
	for _, line := range said {
		fmt.Fprintln(os.Stderr, line)
	}
	if last == "" {
		return status
	}
	return printed(status, last)
}

// Prints a text, and returns the status. If standard output has no room, a yes gets another status.
func printed(status int, text string) int {
	if _, err := fmt.Println(text); err != nil {
		fmt.Fprintln(os.Stderr, "standard output: not written")
		if status == yes {
			return badFile
		}
	}
	return status
}

// Check is for a test: the error has the explanation if the verdict is not yes.
func Check(name string, make func() Map, words ...string) error {
	status, said, last, wrong := tested(name, make, words)
	if wrong != nil {
		return wrong
	}
	if status != yes {
		return errors.New(strings.Join(append(said, last), "\n"))
	}
	return nil
}
