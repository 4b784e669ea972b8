// Package rudzkvano executes GraphQL queries with DataLoader batching, over Rudzkvano's C library. Functions of yours ask for the keys of
// each batch.
//
//	server, err := rudzkvano.Open(schema, bindings)
//	response, err := server.Answer(ctx, rudzkvano.Request{Query: "{user(id:1){name}}"}, rudzkvano.Loaders{"userById": usersByID}, nil)
package rudzkvano

/*
#cgo CFLAGS: -I${SRCDIR}/../c
#cgo LDFLAGS: -L${SRCDIR}/../../crates/rudzkvano_c/out -Wl,-rpath,${SRCDIR}/../../crates/rudzkvano_c/out -lrudzkvano_c
#include "rudzkvano.h"
*/
import "C"

import (
	"context"
	"encoding/json"
	"fmt"
	"math"
	"runtime"
	"strings"
	"sync"
	"time"
	"unsafe"
)

// Loader is what can be asked for: the rows of a table, by none, one or two of its columns. One that folds compares keys without the case of
// A to Z.
type Loader struct {
	Name, Table string
	Columns     []string
	Folds       bool
}

// BatchFunc asks for the keys of a batch, and for all rows where its loader is by no column: then there are no keys. An error is that of
// each key.
type BatchFunc func(ctx context.Context, keys []Key) (Rows, error)

// Loaders has the batch functions by the names of their loaders.
type Loaders map[string]BatchFunc

// Request is a query with the name of the operation to run, if there are several, and the values of its variables.
type Request struct {
	Query, OperationName string
	Variables            any
	// JSON is the text of a request, or of an array of 1 to 16 requests, which share their rounds. It stands in place of the other fields.
	JSON []byte
}

// Options limits batches and answers. Nil is no limit.
type Options struct {
	// MaxBatch is how many keys a batch may have, up to 65,535, and MaxBatchOf the same for loaders by name. 0 is no limit.
	MaxBatch   int
	MaxBatchOf map[string]int
	// MaxAnswer is how many bytes an answer may have. A longer one is answered with "answer too long". 0 is no limit.
	MaxAnswer int
	// MaxWork is how much work a request may be, or all of an array in sum: how many positions its answer has. As soon as it is more, by what is
	// known, no further batch is asked for, and the answer is "too much work". 0 is no limit.
	MaxWork int
	// MaxRounds is how many rounds a request may take, or all of an array together. One that needs more is answered with "too many rounds". 0 is no
	// limit.
	MaxRounds int
	// OnRound is called after each round.
	OnRound func(Round)
}

// Round is a round that was run, with its number in its answer, from 1.
type Round struct {
	Round   int
	Batches []Ran
}

// Ran is a batch that was run, how long its function ran, and why it failed as a whole, if it did.
type Ran struct {
	Loader string
	Keys   []Key
	Time   time.Duration
	Err    error
}

// Batch is a batch that a client asked for: its round, counted from 1 since the client was made or started again, and whether its replies
// were stored.
type Batch struct {
	Round  int
	Stored bool
	Keys   []Key
}

// Response is a response, of which the data may be decoded as wanted.
type Response struct {
	Data   json.RawMessage `json:"data"`
	Errors []ResponseError `json:"errors"`
}

// ResponseError is an error in a response.
type ResponseError struct {
	Message   string     `json:"message"`
	Locations []Location `json:"locations"`
	Path      []any      `json:"path"`
}

// Location is a place in a query, from 1.
type Location struct {
	Line   int `json:"line"`
	Column int `json:"column"`
}

// Error is the refusal of a call by the library, with its code in the header.
type Error struct {
	Code       int
	Name, Text string
}

func (e *Error) Error() string { return e.Name + ": " + e.Text }

// ---- Calls.

// handle holds a server, queries or a client of the library. It is in one call at a time, whatever the goroutines are.
type handle struct {
	mutex sync.Mutex
	at    C.rz_handle
}

func newHandle() *handle {
	h := new(handle)
	runtime.SetFinalizer(h, (*handle).close)
	return h
}

// close frees what the handle holds, and finds out whether that was something.
func (h *handle) close() bool {
	h.mutex.Lock()
	defer h.mutex.Unlock()
	if h.at.at == nil {
		return false
	}
	C.rz_close(&h.at)
	return true
}

func (h *handle) call(do func(at *C.rz_handle) C.int32_t) (int, error) {
	h.mutex.Lock()
	defer h.mutex.Unlock()
	code := do(&h.at)
	if code < 0 {
		return 0, refusal(code)
	}
	return int(code), nil
}

func refusal(code C.int32_t) *Error {
	name := words(func(bytes *C.uint8_t, count C.size_t) C.size_t { return C.rz_code_name(code, bytes, count) })
	text := words(func(bytes *C.uint8_t, count C.size_t) C.size_t { return C.rz_code_text(code, bytes, count) })
	return &Error{int(code), name, text}
}

// words has a text of which a call tells the length, and copies as much as there is room for.
func words(call func(bytes *C.uint8_t, count C.size_t) C.size_t) string {
	text := make([]byte, call(bytesAt(nil), 0))
	call(bytesAt(text), C.size_t(len(text)))
	return string(text)
}

// nothing is where the buffers of no elements are: the library takes no null pointer.
var nothing uint64

func bytesAt(list []byte) *C.uint8_t {
	if len(list) == 0 {
		return (*C.uint8_t)(unsafe.Pointer(&nothing))
	}
	return (*C.uint8_t)(unsafe.Pointer(&list[0]))
}

func wordsAt(list []uint32) *C.uint32_t {
	if len(list) == 0 {
		return (*C.uint32_t)(unsafe.Pointer(&nothing))
	}
	return (*C.uint32_t)(unsafe.Pointer(&list[0]))
}

// texts are one after another, with the place where each ends.
type texts struct {
	ends  []uint32
	bytes []byte
}

func newTexts(count, bytes C.size_t) texts { return texts{make([]uint32, count), make([]byte, bytes)} }

func (t *texts) add(text string) {
	t.bytes = append(t.bytes, text...)
	t.ends = append(t.ends, uint32(len(t.bytes)))
}

// fit finds out whether all ends are numbers of 32 bits.
func (t *texts) fit() bool { return len(t.bytes) <= math.MaxUint32 }

func (t *texts) list() []string {
	list, whole, start := make([]string, len(t.ends)), string(t.bytes), uint32(0)
	for number, end := range t.ends {
		list[number], start = whole[start:end], end
	}
	return list
}

// keyLists says how many keys each list has, and how many texts each key has.
type keyLists struct {
	keys, lengths []uint32
	texts         texts
}

func newKeyLists(lists, keys, count, bytes C.size_t) keyLists {
	return keyLists{make([]uint32, lists), make([]uint32, keys), newTexts(count, bytes)}
}

// lists has the keys of each list. The one key of a loader by no column is left out.
func (k *keyLists) lists() [][]Key {
	lists, lengths, texts := make([][]Key, len(k.keys)), k.lengths, k.texts.list()
	for list, count := range k.keys {
		for _, length := range lengths[:count] {
			if length > 0 {
				var key Key
				texts = texts[copy(key[:length], texts):]
				lists[list] = append(lists[list], key)
			}
		}
		lengths = lengths[count:]
	}
	return lists
}

// ---- Servers.

// Server is a schema with its bindings. Goroutines may share it.
type Server struct {
	handle  *handle
	pool    *pool
	loaders []Loader
}

// pool is what a server shares with its clients: a handle of the server, and the queries that no call uses. Queries keep what requests ask, for those
// that come again. They are lent to the call that begins a request, so there are at most as many as calls that began at the same time.
type pool struct {
	server  *handle
	mutex   sync.Mutex
	queries []*handle
	// users counts the server and its clients. The last that is closed frees the pool.
	users int
}

func (p *pool) take() (*handle, error) {
	p.mutex.Lock()
	if last := len(p.queries) - 1; last >= 0 {
		queries := p.queries[last]
		p.queries = p.queries[:last]
		p.mutex.Unlock()
		return queries, nil
	}
	p.mutex.Unlock()
	made := newHandle()
	_, err := p.server.call(func(at *C.rz_handle) C.int32_t { return C.rz_queries(at, &made.at) })
	return made, err
}

func (p *pool) give(queries *handle) {
	p.mutex.Lock()
	defer p.mutex.Unlock()
	p.queries = append(p.queries, queries)
}

func (p *pool) join() {
	p.mutex.Lock()
	defer p.mutex.Unlock()
	p.users++
}

func (p *pool) leave() {
	p.mutex.Lock()
	defer p.mutex.Unlock()
	if p.users--; p.users > 0 {
		return
	}
	p.server.close()
	for _, queries := range p.queries {
		queries.close()
	}
	p.queries = nil
}

// checkVersion refuses a library that doesn't go with the header that this package is compiled with: one of another major number, or an older one.
func checkVersion(library uint32) error {
	const header = uint32(C.RZ_VERSION)
	if library>>16 == header>>16 && library >= header {
		return nil
	}
	return fmt.Errorf("librudzkvano_c.so is version %s of the library, and this package needs %s or a later %d.x", versionText(library),
		versionText(header), header>>16)
}

func versionText(version uint32) string {
	return fmt.Sprintf("%d.%d.%d", version>>16, version>>8&0xFF, version&0xFF)
}

// Open reads a schema and its bindings. The error is a *SchemaFault where they are refused.
func Open(schema, bindings string) (*Server, error) {
	if err := checkVersion(uint32(C.rz_version())); err != nil {
		return nil, err
	}
	server := &Server{handle: newHandle(), pool: &pool{server: newHandle(), users: 1}}
	var fault C.rz_fault
	schemaBytes, bindingsBytes := []byte(schema), []byte(bindings)
	_, err := server.handle.call(func(at *C.rz_handle) C.int32_t {
		return C.rz_open(at, bytesAt(schemaBytes), C.size_t(len(schema)), bytesAt(bindingsBytes), C.size_t(len(bindings)), &fault)
	})
	if err != nil {
		if err.(*Error).Code == C.RZ_BAD_SCHEMA {
			reason := words(func(bytes *C.uint8_t, count C.size_t) C.size_t {
				return C.rz_fault_text(&fault, bytesAt(schemaBytes), C.size_t(len(schema)), bytesAt(bindingsBytes), C.size_t(len(bindings)), bytes, count)
			})
			return nil, &SchemaFault{int(fault.number), int(fault.line), int(fault.column), fault.in_bindings != 0, reason}
		}
		return nil, err
	}
	if _, err := server.handle.call(func(at *C.rz_handle) C.int32_t { return C.rz_share(at, &server.pool.server.at) }); err != nil {
		return nil, err
	}
	if err := server.readLoaders(); err != nil {
		return nil, err
	}
	return server, nil
}

func (s *Server) readLoaders() error {
	var sizes C.rz_loader_sizes
	if _, err := s.handle.call(func(at *C.rz_handle) C.int32_t { return C.rz_loaders_sizes(at, &sizes) }); err != nil {
		return err
	}
	kinds, flat := make([]uint32, sizes.loaders), newTexts(4*sizes.loaders, sizes.bytes)
	_, err := s.handle.call(func(at *C.rz_handle) C.int32_t {
		return C.rz_loaders(at, wordsAt(kinds), sizes.loaders, wordsAt(flat.ends), 4*sizes.loaders, bytesAt(flat.bytes), sizes.bytes)
	})
	list := flat.list()
	for number, kind := range kinds {
		texts := list[4*number:]
		s.loaders = append(s.loaders, Loader{texts[0], texts[1], texts[2 : 2+kind%4], kind >= 4})
	}
	return err
}

// Loaders has the loaders of the bindings.
func (s *Server) Loaders() []Loader { return append([]Loader(nil), s.loaders...) }

// Close frees the server, if none of its clients is open. Those that are may be used further, and the last of them frees it.
func (s *Server) Close() {
	if s.handle.close() {
		s.pool.leave()
	}
}

// Answer answers a request, and starts with a memory of nothing. The error is that of the context where it is done: then no further batch is
// asked. What a request does wrong is no error, but stands in the response. The response to an array of requests is that of AnswerText.
func (s *Server) Answer(ctx context.Context, request Request, loaders Loaders, options *Options) (*Response, error) {
	return decoded(s.AnswerText(ctx, request, loaders, options))
}

// AnswerText is Answer, and returns the text of the response, which is JSON.
func (s *Server) AnswerText(ctx context.Context, request Request, loaders Loaders, options *Options) ([]byte, error) {
	client, err := s.Client(loaders, options)
	if err != nil {
		return nil, err
	}
	defer client.Close()
	return client.AnswerText(ctx, request)
}

// Client makes a client, which knows nothing.
func (s *Server) Client(loaders Loaders, options *Options) (*Client, error) {
	limits, err := s.limits(options)
	if err != nil {
		return nil, err
	}
	if err := s.check(loaders); err != nil {
		return nil, err
	}
	memory, err := s.newMemory(limits, options)
	if err != nil {
		return nil, err
	}
	return &Client{memory: memory, functions: loaders, options: options}, nil
}

// check refuses the name of a loader that the bindings don't have.
func (s *Server) check(functions Loaders) error {
	for name := range functions {
		if _, err := numberOf(s.loaders, name); err != nil {
			return err
		}
	}
	return nil
}

func (s *Server) limits(options *Options) ([]uint32, error) {
	limits := make([]uint32, len(s.loaders))
	if options == nil {
		return limits, nil
	}
	if err := options.check(); err != nil {
		return nil, err
	}
	for number := range limits {
		limits[number] = limit(options.MaxBatch)
	}
	for name, most := range options.MaxBatchOf {
		number, err := numberOf(s.loaders, name)
		if err != nil {
			return nil, err
		}
		limits[number] = limit(most)
	}
	return limits, nil
}

// check refuses limits of answers that are less than 0.
func (o *Options) check() error {
	limits := []struct {
		name string
		most int
	}{{"MaxAnswer", o.MaxAnswer}, {"MaxWork", o.MaxWork}, {"MaxRounds", o.MaxRounds}}
	for _, limit := range limits {
		if limit.most < 0 {
			return fmt.Errorf("%s is %d, and not 0 or more", limit.name, limit.most)
		}
	}
	return nil
}

// limit is a number of keys, or of rounds. One that is out of range is the largest of 32 bits: so many keys are refused, and no answer takes so
// many rounds.
func limit(most int) uint32 {
	if most < 0 || most > math.MaxUint32 {
		return math.MaxUint32
	}
	return uint32(most)
}

func (s *Server) newMemory(limits []uint32, options *Options) (*memory, error) {
	s.pool.join()
	made := &memory{newHandle(), s.pool, s.loaders, map[string]error{}}
	_, err := s.handle.call(func(at *C.rz_handle) C.int32_t {
		code := C.rz_client(at, &made.handle.at, wordsAt(limits), C.size_t(len(limits)))
		if code < 0 || options == nil {
			return code
		}
		return limitAnswers(&made.handle.at, options)
	})
	if err != nil {
		s.pool.leave()
		return nil, err
	}
	return made, nil
}

// limitAnswers sets the limits of answers that there are.
func limitAnswers(client *C.rz_handle, options *Options) C.int32_t {
	code := C.int32_t(C.RZ_DONE)
	if options.MaxAnswer > 0 {
		code = C.rz_limit_answers(client, C.size_t(options.MaxAnswer))
	}
	if code >= 0 && options.MaxWork > 0 {
		code = C.rz_limit_work(client, C.size_t(options.MaxWork))
	}
	if code >= 0 && options.MaxRounds > 0 {
		code = C.rz_limit_rounds(client, C.uint32_t(limit(options.MaxRounds)))
	}
	return code
}

func numberOf(loaders []Loader, name string) (int, error) {
	for number := range loaders {
		if loaders[number].Name == name {
			return number, nil
		}
	}
	return 0, fmt.Errorf("the bindings have no loader %s", name)
}

func decoded(text []byte, err error) (*Response, error) {
	if err != nil {
		return nil, err
	}
	response := new(Response)
	return response, json.Unmarshal(text, response)
}

// ---- Answers.

// memory is a client of the library, and the pool that it begins requests by.
type memory struct {
	handle  *handle
	pool    *pool
	loaders []Loader
	// unread are the columns that are left out of what is known, each with the reason.
	unread map[string]error
}

// order is a batch that is to be asked for.
type order struct {
	number int
	loader *Loader
	keys   []Key
}

// outcome is what a batch function returned, or the value of its panic.
type outcome struct {
	order    order
	rows     Rows
	reply    reply
	err      error
	time     time.Duration
	panicked any
}

func (m *memory) restart() error {
	_, err := m.handle.call(func(at *C.rz_handle) C.int32_t { return C.rz_restart(at) })
	if err == nil {
		m.unread = map[string]error{}
	}
	return err
}

func (m *memory) answer(ctx context.Context, request Request, functions Loaders, options *Options) ([]byte, error) {
	if err := m.begin(request); err != nil {
		return nil, err
	}
	if err := m.finish(ctx, functions, options); err != nil {
		return nil, err
	}
	return m.text()
}

// load loads keys of the loader of a number.
func (m *memory) load(ctx context.Context, number int, keys []Key, functions Loaders, options *Options) ([]Loaded, error) {
	lengths := make([]uint32, len(keys))
	for place := range keys {
		lengths[place] = uint32(len(m.loaders[number].Columns))
	}
	flat, err := flatKeys(&m.loaders[number], keys)
	if err != nil {
		return nil, err
	}
	_, err = m.handle.call(func(at *C.rz_handle) C.int32_t {
		return C.rz_begin_load(at, C.size_t(number), wordsAt(lengths), C.size_t(len(lengths)), wordsAt(flat.ends), C.size_t(len(flat.ends)),
			bytesAt(flat.bytes), C.size_t(len(flat.bytes)))
	})
	if err != nil {
		return nil, err
	}
	if err := m.finish(ctx, functions, options); err != nil {
		return nil, err
	}
	return m.loaded()
}

// finish runs the rounds of what was begun, and gives it up where that fails.
func (m *memory) finish(ctx context.Context, functions Loaders, options *Options) error {
	err := m.runRounds(ctx, functions, options)
	if err != nil {
		// refused where the library has given it up by itself
		_, _ = m.handle.call(func(at *C.rz_handle) C.int32_t { return C.rz_cancel(at) })
	}
	return err
}

func (m *memory) begin(request Request) error {
	query, operation, variables := []byte(request.Query), []byte(request.OperationName), []byte(nil)
	if request.Variables != nil {
		var err error
		if variables, err = json.Marshal(request.Variables); err != nil {
			return err
		}
	}
	queries, err := m.pool.take()
	if err != nil {
		return err
	}
	defer m.pool.give(queries)
	_, err = m.handle.call(func(at *C.rz_handle) C.int32_t {
		if request.JSON != nil {
			return C.rz_begin(at, &queries.at, bytesAt(request.JSON), C.size_t(len(request.JSON)))
		}
		return C.rz_begin_request(at, &queries.at, bytesAt(query), C.size_t(len(query)), bytesAt(operation), C.size_t(len(operation)),
			bytesAt(variables), C.size_t(len(variables)))
	})
	return err
}

func (m *memory) runRounds(ctx context.Context, functions Loaders, options *Options) error {
	for round := 1; ; round++ {
		// before the next round is begun: its batches stand in the log from then on
		if err := ctx.Err(); err != nil {
			return err
		}
		code, err := m.handle.call(func(at *C.rz_handle) C.int32_t { return C.rz_next(at) })
		if err != nil || code == C.RZ_DONE {
			return err
		}
		batches, err := m.runRound(ctx, functions)
		if err != nil {
			return err
		}
		if options != nil && options.OnRound != nil {
			options.OnRound(Round{round, batches})
		}
	}
}

// runRound runs the batches of a round at the same time. It waits for none of them where the context is done, nor where one panics: then it
// panics itself.
func (m *memory) runRound(ctx context.Context, functions Loaders) ([]Ran, error) {
	orders, err := m.orders()
	if err != nil {
		return nil, err
	}
	outcomes := make(chan outcome, len(orders))
	for _, order := range orders {
		order := order
		go func() { outcomes <- order.ask(ctx, functions[order.loader.Name]) }()
	}
	batches := make([]Ran, len(orders))
	for range orders {
		select {
		case <-ctx.Done():
			return nil, ctx.Err()
		case done := <-outcomes:
			if done.panicked != nil {
				panic(done.panicked)
			}
			if err := m.take(&done); err != nil {
				return nil, err
			}
			batches[done.order.number] = Ran{done.order.loader.Name, done.order.keys, done.time, done.err}
		}
	}
	return batches, nil
}

func (o order) ask(ctx context.Context, function BatchFunc) (done outcome) {
	defer func() { done.panicked = recover() }()
	done.order = o
	if function == nil {
		done.err = fmt.Errorf("no function for loader %s", o.loader.Name)
		return done
	}
	start := time.Now()
	done.rows, done.err = function(ctx, o.keys)
	done.time = time.Since(start)
	if done.err == nil {
		done.reply, done.err = flatten(o.loader, o.keys, done.rows)
	}
	return done
}

// take hands in what a batch function returned. Where the library refuses its rows, the batch fails.
func (m *memory) take(done *outcome) error {
	if done.err == nil {
		if err := m.takeRows(done); err != nil || done.err == nil {
			return err
		}
	}
	why := []byte(strings.ToValidUTF8(done.err.Error(), "\uFFFD"))
	_, err := m.handle.call(func(at *C.rz_handle) C.int32_t {
		return C.rz_take_failed(at, C.size_t(done.order.number), bytesAt(why), C.size_t(len(why)))
	})
	return err
}

// takeRows hands in rows, without those of keys that the database cast. It notes why the batch fails where they aren't rows of its keys.
func (m *memory) takeRows(done *outcome) error {
	loader, keys := done.order.loader, done.order.keys
	err := m.handIn(done.order.number, &done.reply)
	if refused, is := err.(*Error); is && (refused.Code == C.RZ_NO_KEY_COLUMN || refused.Code == C.RZ_NOT_ASKED) {
		if done.reply, done.err = flattenWithoutCasts(loader, keys, done.rows); done.err != nil {
			return nil
		}
		err = m.handIn(done.order.number, &done.reply)
	}
	for column, why := range done.reply.unread {
		m.unread[column] = why
	}
	return err
}

func (m *memory) handIn(order int, reply *reply) error {
	number, columns, rows, ends, bytes := C.size_t(order), C.size_t(reply.columns), reply.rows, reply.texts.ends, reply.texts.bytes
	row := C.uint32_t(0)
	_, err := m.handle.call(func(at *C.rz_handle) C.int32_t {
		if reply.keyed {
			return C.rz_take_keyed_rows(at, number, columns, C.uint32_t(rows[0]), wordsAt(reply.faults), C.size_t(len(reply.faults)),
				wordsAt(ends), C.size_t(len(ends)), bytesAt(bytes), C.size_t(len(bytes)), &row)
		}
		return C.rz_take_rows(at, number, columns, wordsAt(rows), C.size_t(len(rows)), wordsAt(ends), C.size_t(len(ends)), bytesAt(bytes),
			C.size_t(len(bytes)))
	})
	return err
}

func (m *memory) sizes() (sizes C.rz_sizes_t, err error) {
	_, err = m.handle.call(func(at *C.rz_handle) C.int32_t { return C.rz_sizes(at, &sizes) })
	return sizes, err
}

func (m *memory) orders() ([]order, error) {
	sizes, err := m.sizes()
	if err != nil {
		return nil, err
	}
	loaders, told := make([]uint32, sizes.orders), newKeyLists(sizes.orders, sizes.keys, sizes.texts, sizes.bytes)
	_, err = m.handle.call(func(at *C.rz_handle) C.int32_t {
		return C.rz_orders(at, wordsAt(loaders), sizes.orders, wordsAt(told.keys), sizes.orders, wordsAt(told.lengths), sizes.keys,
			wordsAt(told.texts.ends), sizes.texts, bytesAt(told.texts.bytes), sizes.bytes)
	})
	if err != nil {
		return nil, err
	}
	orders := make([]order, len(loaders))
	for number, keys := range told.lists() {
		orders[number] = order{number, &m.loaders[loaders[number]], keys}
	}
	return orders, nil
}

func (m *memory) text() ([]byte, error) {
	sizes, err := m.sizes()
	if err != nil {
		return nil, err
	}
	text := make([]byte, sizes.answer)
	_, err = m.handle.call(func(at *C.rz_handle) C.int32_t { return C.rz_answer(at, bytesAt(text), sizes.answer) })
	if err != nil || len(m.unread) == 0 {
		return text, err
	}
	return explained(text, m.unread)
}

func (m *memory) loaded() ([]Loaded, error) {
	var sizes C.rz_load_sizes_t
	if _, err := m.handle.call(func(at *C.rz_handle) C.int32_t { return C.rz_load_sizes(at, &sizes) }); err != nil {
		return nil, err
	}
	rows, columns := make([]uint32, sizes.keys), make([]uint32, sizes.rows)
	flat, faults := newTexts(sizes.texts, sizes.bytes), newTexts(sizes.faults, sizes.fault_bytes)
	_, err := m.handle.call(func(at *C.rz_handle) C.int32_t {
		return C.rz_loaded(at, wordsAt(rows), sizes.keys, wordsAt(columns), sizes.rows, wordsAt(flat.ends), sizes.texts, bytesAt(flat.bytes),
			sizes.bytes, wordsAt(faults.ends), sizes.faults, bytesAt(faults.bytes), sizes.fault_bytes)
	})
	if err != nil {
		return nil, err
	}
	return loadedOf(rows, columns, flat.list(), faults.list()), nil
}

// ---- Clients.

// Client is a memory of what the loaders returned, which goes on from request to request. It answers one request at a time, or loads keys.
type Client struct {
	memory    *memory
	functions Loaders
	options   *Options
	answering sync.Mutex
}

// Answer answers a request as Server.Answer does. Keys that are known aren't asked for. The error has the code RZ_BUSY where the client is
// answering another request.
func (c *Client) Answer(ctx context.Context, request Request) (*Response, error) {
	return decoded(c.AnswerText(ctx, request))
}

// AnswerText is Answer, and returns the text of the response, which is JSON.
func (c *Client) AnswerText(ctx context.Context, request Request) ([]byte, error) {
	if !c.answering.TryLock() {
		return nil, refusal(C.RZ_BUSY)
	}
	defer c.answering.Unlock()
	return c.memory.answer(ctx, request, c.functions, c.options)
}

// LoadMany has for each key of a loader what is known of it, in order. Keys that aren't known are asked for in one round, of equal keys only the
// first. A loader by no column has the key Key{}. The error has the code RZ_BUSY where the client is answering a request.
func (c *Client) LoadMany(ctx context.Context, loader string, keys ...Key) ([]Loaded, error) {
	number, err := numberOf(c.memory.loaders, loader)
	if err != nil {
		return nil, err
	}
	if !c.answering.TryLock() {
		return nil, refusal(C.RZ_BUSY)
	}
	defer c.answering.Unlock()
	return c.memory.load(ctx, number, keys, c.functions, c.options)
}

// Prime knows these rows for a key, unless something is known of it. It returns whether they were added. A loader by no column has the key
// Key{}.
func (c *Client) Prime(loader string, key Key, rows Rows) (bool, error) {
	number, flat, err := c.key(loader, key)
	if err != nil {
		return false, err
	}
	told, err := flatten(&c.memory.loaders[number], []Key{key}, rows)
	if err == nil && told.keyed {
		told, err = flattenWithoutCasts(&c.memory.loaders[number], []Key{key}, rows)
	}
	if len(told.faults) > 0 {
		told.rows[0] = keyFault
	}
	if err != nil {
		return false, err
	}
	for _, why := range told.unread {
		return false, why
	}
	var primed C.uint32_t
	_, err = c.memory.handle.call(func(at *C.rz_handle) C.int32_t {
		return C.rz_prime(at, C.size_t(number), wordsAt(flat.ends), C.size_t(len(flat.ends)), bytesAt(flat.bytes), C.size_t(len(flat.bytes)),
			C.size_t(told.columns), C.uint32_t(told.rows[0]), wordsAt(told.texts.ends), C.size_t(len(told.texts.ends)),
			bytesAt(told.texts.bytes), C.size_t(len(told.texts.bytes)), &primed)
	})
	return primed != 0, err
}

// Clear forgets a key. It returns whether something was known of it.
func (c *Client) Clear(loader string, key Key) (bool, error) {
	number, flat, err := c.key(loader, key)
	if err != nil {
		return false, err
	}
	var wasKnown C.uint32_t
	_, err = c.memory.handle.call(func(at *C.rz_handle) C.int32_t {
		return C.rz_clear(at, C.size_t(number), wordsAt(flat.ends), C.size_t(len(flat.ends)), bytesAt(flat.bytes), C.size_t(len(flat.bytes)),
			&wasKnown)
	})
	return wasKnown != 0, err
}

// key has the number of a loader, and the texts of a key of it.
func (c *Client) key(loader string, key Key) (number int, flat texts, err error) {
	number, err = numberOf(c.memory.loaders, loader)
	if err != nil {
		return 0, flat, err
	}
	flat, err = flatKeys(&c.memory.loaders[number], []Key{key})
	return number, flat, err
}

// ClearAll forgets all keys of a loader.
func (c *Client) ClearAll(loader string) error {
	number, err := numberOf(c.memory.loaders, loader)
	if err != nil {
		return err
	}
	_, err = c.memory.handle.call(func(at *C.rz_handle) C.int32_t { return C.rz_clear_all(at, C.size_t(number)) })
	return err
}

// Restart forgets all keys, logs and rounds.
func (c *Client) Restart() error {
	if !c.answering.TryLock() {
		return refusal(C.RZ_BUSY)
	}
	defer c.answering.Unlock()
	return c.memory.restart()
}

// Log has the batches that a loader was asked for since the client was made or started again.
func (c *Client) Log(loader string) ([]Batch, error) {
	number, err := numberOf(c.memory.loaders, loader)
	if err != nil {
		return nil, err
	}
	var sizes C.rz_log_sizes_t
	handle := c.memory.handle
	if _, err := handle.call(func(at *C.rz_handle) C.int32_t { return C.rz_log_sizes(at, C.size_t(number), &sizes) }); err != nil {
		return nil, err
	}
	rounds, stored := make([]uint32, sizes.batches), make([]uint32, sizes.batches)
	told := newKeyLists(sizes.batches, sizes.keys, sizes.texts, sizes.bytes)
	_, err = handle.call(func(at *C.rz_handle) C.int32_t {
		return C.rz_log(at, C.size_t(number), wordsAt(rounds), sizes.batches, wordsAt(stored), sizes.batches, wordsAt(told.keys), sizes.batches,
			wordsAt(told.lengths), sizes.keys, wordsAt(told.texts.ends), sizes.texts, bytesAt(told.texts.bytes), sizes.bytes)
	})
	if err != nil {
		return nil, err
	}
	batches := make([]Batch, len(rounds))
	for number, keys := range told.lists() {
		batches[number] = Batch{int(rounds[number]), stored[number] != 0, keys}
	}
	return batches, nil
}

// Close frees the client.
func (c *Client) Close() {
	if c.memory.handle.close() {
		c.memory.pool.leave()
	}
}
