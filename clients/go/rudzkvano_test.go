package rudzkvano

import (
	"bytes"
	"context"
	"database/sql"
	"encoding/csv"
	"encoding/json"
	"errors"
	"fmt"
	"math"
	"math/rand"
	"os"
	"os/exec"
	"path/filepath"
	"reflect"
	"runtime"
	"runtime/debug"
	"strconv"
	"strings"
	"sync"
	"testing"
	"time"
)

const examples = "../../examples"

type table struct {
	columns []string
	rows    [][]any
}

// world has the files of a folder of examples, whose tables are asked as query_cli asks them.
type world struct {
	server            *Server
	tables            map[string]table
	requests, answers [][]byte
}

func must[T any](value T, err error) T {
	if err != nil {
		panic(err)
	}
	return value
}

func read(path string) string { return string(must(os.ReadFile(filepath.Join(examples, path)))) }

func lines(text string) [][]byte {
	return bytes.Split([]byte(strings.TrimSuffix(text, "\n")), []byte("\n"))
}

// readTable reads a table. An empty field is null.
func readTable(path string) table {
	records := must(csv.NewReader(strings.NewReader(read(path))).ReadAll())
	read := table{columns: records[0]}
	for _, record := range records[1:] {
		row := make([]any, len(record))
		for place, field := range record {
			if field != "" {
				row[place] = field
			}
		}
		read.rows = append(read.rows, row)
	}
	return read
}

func readWorld(folder string) *world {
	read := &world{
		server:   must(Open(read(folder+"schema.graphql"), read(folder+"bindings.txt"))),
		tables:   map[string]table{},
		requests: lines(read(folder + "requests.jsonl")),
		answers:  lines(read(folder + "answers.jsonl")),
	}
	for _, path := range []string{"users", "posts", "named", "likes", "votes/votes"} {
		read.tables[filepath.Base(path)] = readTable(path + ".csv")
	}
	return read
}

// ask returns the rows for some keys: aligned with them, or in the order of the table. A null column equals no key.
func (t table) ask(loader Loader, keys []Key, aligned bool) Rows {
	asked, items := map[Key]int{}, make([]Item, len(keys))
	for number, key := range keys {
		asked[loader.compared(key)] = number
	}
	found := Rows{Columns: t.columns}
	for _, row := range t.rows {
		key := must(loader.keyOf(t.columns, 0, row))
		number, isAsked := asked[loader.compared(key)]
		if len(keys) == 0 || isAsked && key[0] != "" {
			found.Rows = append(found.Rows, row)
		}
		if isAsked {
			items[number].Rows = append(items[number].Rows, row)
		}
	}
	if aligned && len(keys) > 0 {
		return Rows{Columns: t.columns, Items: items}
	}
	return found
}

// loaders has a batch function for each loader, which first waits.
func (w *world) loaders(aligned bool, wait func()) Loaders {
	loaders := Loaders{}
	for _, loader := range w.server.Loaders() {
		loader := loader
		loaders[loader.Name] = func(_ context.Context, keys []Key) (Rows, error) {
			wait()
			return w.tables[loader.Table].ask(loader, keys, aligned), nil
		}
	}
	return loaders
}

func now() {}

func late() { time.Sleep(time.Duration(rand.Intn(20)) * time.Millisecond) }

func expect(t *testing.T, what any, got, wanted any) {
	t.Helper()
	if !reflect.DeepEqual(got, wanted) {
		t.Errorf("%v:\n got:    %v\n wanted: %v", what, got, wanted)
	}
}

// answer has the text of an answer, or of the error.
func answer(text []byte, err error) string {
	if err != nil {
		return err.Error()
	}
	return string(text)
}

func ExampleServer_Answer() {
	schema := "type Query { user(id: ID!): User } type User { id: ID! name: String! }"
	bindings := "bindings 1\nloader userById users by id\nfield Query.user one userById arg id\n"
	server := must(Open(schema, bindings))
	defer server.Close()
	names := map[string]string{"1": "Ada", "2": "Bob"}
	users := func(ctx context.Context, keys []Key) (Rows, error) {
		items := make([]Item, len(keys))
		for place, key := range keys {
			if name, found := names[key[0]]; found {
				items[place].Rows = [][]any{{name}}
			}
		}
		return Rows{Columns: []string{"name"}, Items: items}, nil
	}
	request := Request{Query: "query($id: ID!){user(id: $id){name}}", Variables: map[string]any{"id": 2}}
	response := must(server.Answer(context.Background(), request, Loaders{"userById": users}, nil))
	fmt.Println(string(response.Data), response.Errors)
	// Output: {"user":{"name":"Bob"}} []
}

func TestExamplesAreAnsweredAsStored(t *testing.T) {
	for _, folder := range []string{"", "votes/"} {
		world := readWorld(folder)
		defer world.server.Close()
		for number, options := range []*Options{nil, {MaxBatch: 1}, {MaxBatch: 2}, {MaxBatchOf: map[string]int{"userById": 3}}} {
			for place, request := range world.requests {
				text, err := world.server.AnswerText(context.Background(), Request{JSON: request}, world.loaders(number%2 == 0, now), options)
				expect(t, string(request), answer(text, err), string(world.answers[place]))
			}
		}
	}
}

func TestTwoHundredRequestsAtTheSameTime(t *testing.T) {
	world := readWorld("")
	defer world.server.Close()
	var group sync.WaitGroup
	for number := 0; number < 200; number++ {
		group.Add(1)
		go func(number int) {
			defer group.Done()
			place, loaders := number%len(world.requests), world.loaders(number%3 == 0, late)
			request := Request{JSON: world.requests[place]}
			if number%2 == 0 {
				expect(t, number, answer(world.server.AnswerText(context.Background(), request, loaders, nil)), string(world.answers[place]))
				return
			}
			client := must(world.server.Client(loaders, nil))
			defer client.Close()
			expect(t, number, answer(client.AnswerText(context.Background(), request)), string(world.answers[place]))
		}(number)
	}
	group.Wait()
}

// Each goroutine begins with another line, and has other limits. Its requests go to the server and to a client in turn.
func TestGoroutinesThatShareAServerAnswerAsStored(t *testing.T) {
	world := readWorld("")
	defer world.server.Close()
	var group sync.WaitGroup
	for number := 0; number < 8; number++ {
		group.Add(1)
		go func(number int) {
			defer group.Done()
			loaders, options := world.loaders(number%2 == 0, now), &Options{MaxBatch: number}
			client := must(world.server.Client(loaders, options))
			defer client.Close()
			for turn := 0; turn < 500; turn++ {
				place := (10*number + turn) % len(world.requests)
				request, wanted := Request{JSON: world.requests[place]}, string(world.answers[place])
				expect(t, number, answer(world.server.AnswerText(context.Background(), request, loaders, options)), wanted)
				expect(t, number, answer(client.AnswerText(context.Background(), request)), wanted)
			}
		}(number)
	}
	group.Wait()
	if kept := len(world.server.pool.queries); kept < 1 || kept > 8 {
		t.Errorf("8 goroutines leave %d handles of queries", kept)
	}
}

func TestClientsGoOnAfterTheirServer(t *testing.T) {
	world := readWorld("")
	loaders, ctx := world.loaders(true, now), context.Background()
	clients := make([]*Client, 3)
	for place := range clients {
		clients[place] = must(world.server.Client(loaders, nil))
	}
	world.server.Close()
	_, err := world.server.AnswerText(ctx, Request{JSON: world.requests[0]}, loaders, nil)
	expect(t, "closed", err.(*Error).Name, "RZ_BAD_HANDLE")
	var group sync.WaitGroup
	for _, client := range clients {
		group.Add(1)
		go func(client *Client) {
			defer group.Done()
			for place, request := range world.requests {
				expect(t, string(request), answer(client.AnswerText(ctx, Request{JSON: request})), string(world.answers[place]))
			}
			client.Close()
			client.Close()
		}(client)
	}
	group.Wait()
	world.server.Close()
	pool := world.server.pool
	expect(t, "freed with the last of them", []any{pool.users, len(pool.queries), pool.server.close()}, []any{0, 0, false})
}

// answersOfOthers has the answers of query_cli to a file of lines, or else of the host in C over tables in memory.
func answersOfOthers(t *testing.T, path string) []byte {
	program, options := os.Getenv("RUDZKVANO_QUERY_CLI"), []string{"--schema", "schema.graphql", "--bindings", "bindings.txt"}
	if program == "" {
		program = "../../crates/query_cli/out/query_cli"
	}
	if _, err := os.Stat(program); err != nil {
		program, options = "../../crates/rudzkvano_c/out/hosts/tables_host", []string{"schema.graphql", "bindings.txt"}
	}
	if _, err := os.Stat(program); err != nil {
		t.Skip("left out: neither query_cli nor tables_host is built, which answers random lines too")
	}
	command := exec.Command(must(filepath.Abs(program)), append(options, path)...)
	for _, name := range []string{"users", "posts", "named", "likes"} {
		command.Args = append(command.Args, name+"="+name+".csv")
	}
	command.Dir = examples
	return must(command.Output())
}

func TestRandomLinesAreAnsweredAsByQueryCLI(t *testing.T) {
	written, err := exec.Command("python3", "../python/random_lines.py", "2000", "42").Output()
	if err != nil {
		t.Skip("left out: random lines want python3")
	}
	path := filepath.Join(t.TempDir(), "random.jsonl")
	if err := os.WriteFile(path, written, 0o600); err != nil {
		t.Fatal(err)
	}
	requests, wanted := lines(string(written)), lines(string(answersOfOthers(t, path)))
	expect(t, "lines", []int{len(requests), len(wanted)}, []int{2000, 2000})
	world := readWorld("")
	defer world.server.Close()
	loaders := world.loaders(false, now)
	for place, request := range requests {
		expect(t, string(request), answer(world.server.AnswerText(context.Background(), Request{JSON: request}, loaders, nil)), string(wanted[place]))
	}
}

// failed is the answer to `{user(id:1){name} users{id}}` where the user failed.
func failed(message string) string {
	return `{"errors":[{"message":"` + message + `","locations":[{"line":1,"column":2}],"path":["user"]}],` +
		`"data":{"user":null,"users":[{"id":"1"},{"id":"2"},{"id":"3"},{"id":"4"}]}}`
}

func TestABatchThatFailsIsAFaultOfItsKeysAlone(t *testing.T) {
	columns := []string{"id", "name"}
	unlike := errors.New("down")
	cases := []struct {
		rows    Rows
		err     error
		message string
	}{
		{err: unlike, message: "down"},
		{err: errors.New("no \xff"), message: "no \uFFFD"},
		{rows: Rows{Columns: columns, Items: []Item{{Err: unlike}}}, message: "down"},
		{rows: Rows{Columns: columns, Items: []Item{{}, {}}}, message: "loader userById: 2 items for 1 keys"},
		{rows: Rows{Columns: columns, Items: []Item{{Rows: [][]any{{1}}}}}, message: "loader userById: a row of 1 values for 2 columns"},
		{rows: Rows{Columns: columns, Rows: [][]any{{1}}}, message: "loader userById: a row of 1 values for 2 columns"},
		{rows: Rows{Rows: [][]any{{}}}, message: "loader userById: a row has no columns"},
		{rows: Rows{Columns: columns[1:], Rows: [][]any{{"Ada"}}}, message: "loader userById: its rows have no column id"},
		{rows: Rows{Columns: columns, Rows: [][]any{{9, "Eve"}}}, message: "loader userById: row 1 has the key '9' in column id, which wasn't asked for"},
		{rows: Rows{Columns: columns, Rows: [][]any{{nil, nil}}}, message: "loader userById: row 1 has the key '' in column id, which wasn't asked for"},
		{rows: Rows{Columns: columns, Rows: [][]any{{[]int{7}, "Eve"}}}, message: "loader userById, column id, row 1: a value of type []int has no text"},
		{rows: Rows{Columns: columns, Rows: [][]any{}, Items: []Item{{}}}, message: "loader userById: both Rows and Items"},
	}
	world := readWorld("")
	defer world.server.Close()
	request := Request{Query: "{user(id:1){name} users{id}}"}
	loaders := world.loaders(true, now)
	for _, each := range cases {
		each := each
		loaders["userById"] = func(context.Context, []Key) (Rows, error) { return each.rows, each.err }
		expect(t, each.message, answer(world.server.AnswerText(context.Background(), request, loaders, nil)), failed(each.message))
	}
	delete(loaders, "userById")
	text := answer(world.server.AnswerText(context.Background(), request, loaders, nil))
	expect(t, "no function", text, failed("no function for loader userById"))
	for _, options := range []*Options{nil, {MaxBatchOf: map[string]int{"userByID": 1}}} {
		if options == nil {
			loaders["userByID"] = loaders["allUsers"]
		}
		text := answer(world.server.AnswerText(context.Background(), request, loaders, options))
		expect(t, options, text, "the bindings have no loader userByID")
		delete(loaders, "userByID")
	}
}

func TestAColumnThatCantBeReadFailsWhereItIsUsed(t *testing.T) {
	schema := "type Query { user(id: ID!): User users: [User] } type User { id: ID name: String age: Int }"
	bindings := "bindings 1\nloader userById users by id\nloader allUsers users\nfield Query.user one userById arg id\nfield Query.users many allUsers all\n"
	server := must(Open(schema, bindings))
	defer server.Close()
	columns := []string{"id", "age", "name"}
	query := "{a:user(id:1){name} b:user(id:2){name age}}"
	plain := `{"data":{"a":{"name":"Ada"},"b":{"name":"<Bob>"}}}`
	cases := []struct {
		value any
		what  string
	}{
		{[]int{7}, "a value of type []int has no text"}, {math.NaN(), "NaN has no text"}, {[]byte("\xff"), "a text isn't UTF-8"},
	}
	for _, each := range cases {
		ada, bob := []any{1, each.value, "Ada"}, []any{2, 7, "<Bob>"}
		forms := []Rows{
			{Columns: columns, Rows: [][]any{bob, ada}},
			{Columns: columns, Items: []Item{{Rows: [][]any{ada}}, {Rows: [][]any{bob}}}},
		}
		for _, rows := range forms {
			rows := rows
			loaders := Loaders{
				"userById": func(context.Context, []Key) (Rows, error) { return rows, nil },
				"allUsers": func(context.Context, []Key) (Rows, error) {
					return Rows{Columns: columns, Rows: [][]any{bob, ada}}, nil
				},
			}
			ask := func(query string) string {
				return answer(server.AnswerText(context.Background(), Request{Query: query}, loaders, nil))
			}
			expect(t, each.what, ask("{a:user(id:1){name} b:user(id:2){name}}"), plain)
			wanted := `{"errors":[{"message":"loader userById, column age, row 1 of the key '1': ` + each.what +
				`","locations":[{"line":1,"column":39}],"path":["b","age"]}],"data":{"a":{"name":"Ada"},"b":{"name":"<Bob>","age":null}}}`
			expect(t, each.what, ask(query), wanted)
			expect(t, each.what, strings.Contains(ask("{users{age}}"), "loader allUsers, column age, row 2: "+each.what), true)
			text := answer(server.AnswerText(context.Background(), Request{JSON: []byte(`[{"query":"` + query + `"},{"query":"{user(id:1){name}}"}]`)}, loaders, nil))
			expect(t, each.what, text, "["+wanted+`,{"data":{"user":{"name":"Ada"}}}]`)
			client := must(server.Client(loaders, nil))
			loaded := must(client.LoadMany(context.Background(), "userById", Key{"1"}, Key{"2"}))
			expect(t, each.what, loaded[1].Rows, []LoadedRow{{[]string{"id", "name"}, []string{"2", "<Bob>"}}})
			_, err := client.Prime("userById", Key{"3"}, Rows{Columns: columns, Rows: [][]any{{3, each.value, ""}}})
			expect(t, each.what, err.Error(), "loader userById, column age, row 1 of the key '3': "+each.what)
			client.Close()
		}
	}
}

func TestWhatADatabaseCastsIsAFaultOfItsKey(t *testing.T) {
	loader := &Loader{Name: "one", Columns: []string{"id"}}
	pairs := &Loader{Name: "two", Columns: []string{"id", "name"}}
	columns := []string{"id", "name"}
	cases := []struct {
		loader *Loader
		keys   []Key
		row    []any
		faults []string
	}{
		{loader, []Key{{"01"}, {"2"}}, []any{1, ""}, []string{"loader one: a row of the key '1' for the key '01'", ""}},
		{loader, []Key{{" 1.0"}, {"2"}, {"+1"}}, []any{1, ""},
			[]string{"loader one: a row of the key '1' for the key ' 1.0'", "", "loader one: a row of the key '1' for the key '+1'"}},
		{loader, []Key{{"ADA "}, {"2"}}, []any{"Ada", ""}, []string{"loader one: a row of the key 'Ada' for the key 'ADA '", ""}},
		{loader, []Key{{"-0.50"}, {"2"}}, []any{-0.5, ""}, []string{"loader one: a row of the key '-0.5' for the key '-0.50'", ""}},
		{loader, []Key{{"1.20E2"}, {"2"}}, []any{120, ""}, []string{"loader one: a row of the key '120' for the key '1.20E2'", ""}},
		{loader, []Key{{"-0"}, {"2"}}, []any{0, ""}, []string{"loader one: a row of the key '0' for the key '-0'", ""}},
		{pairs, []Key{{"01", "x"}, {"2", "y"}}, []any{1, "X"}, []string{"loader two: a row of the key '1', 'X' for the key '01', 'x'", ""}},
	}
	for _, each := range cases {
		rest, faults, err := each.loader.withoutCasts(each.keys, Rows{Columns: columns, Rows: [][]any{each.row, {"2", "y"}}})
		expect(t, each.keys, err, nil)
		expect(t, each.keys, rest.Rows, [][]any{{"2", "y"}})
		for number, fault := range each.faults {
			got := ""
			if faults[number] != nil {
				got = faults[number].Error()
			}
			expect(t, each.keys[number], got, fault)
		}
	}
	_, _, err := loader.withoutCasts([]Key{{"-1"}, {"."}, {""}, {"1e"}}, Rows{Columns: columns, Rows: [][]any{{1, ""}}})
	expect(t, "another number", err.Error(), "loader one: row 1 has the key '1' in column id, which wasn't asked for")
}

func TestRowsOfKeysThatWereCastAreLeftOut(t *testing.T) {
	server := must(Open(read("schema.graphql"), read("bindings.txt")))
	defer server.Close()
	users := func(_ context.Context, keys []Key) (rows Rows, _ error) {
		rows.Columns = []string{"id", "name"}
		for _, key := range keys {
			number := must(strconv.Atoi(key[0]))
			rows.Rows = append(rows.Rows, []any{number, fmt.Sprint("a", number)}, []any{number, fmt.Sprint("b", number)})
		}
		return rows, nil
	}
	client := must(server.Client(Loaders{"userById": users}, nil))
	defer client.Close()
	keys := make([]Key, 1000)
	for number := range keys {
		keys[number] = Key{fmt.Sprint(number)}
		if number%2 == 1 {
			keys[number] = Key{fmt.Sprintf("%05d", number)}
		}
	}
	for number, loaded := range must(client.LoadMany(context.Background(), "userById", keys...)) {
		id := fmt.Sprint(number)
		wanted := Loaded{Rows: []LoadedRow{{[]string{"id", "name"}, []string{id, "a" + id}}, {[]string{"id", "name"}, []string{id, "b" + id}}}}
		if number%2 == 1 {
			wanted = Loaded{Err: &LoadFault{fmt.Sprintf("loader userById: a row of the key '%d' for the key '%05d'", number, number), false}}
		}
		expect(t, keys[number], loaded, wanted)
	}
	wasAdded, err := client.Prime("userById", Key{"1.0"}, Rows{Columns: []string{"id"}, Rows: [][]any{{1}}})
	expect(t, "primed", []any{wasAdded, err}, []any{true, nil})
	loaded := must(client.LoadMany(context.Background(), "userById", Key{"1.0"}))
	expect(t, "primed", loaded[0].Err, error(&LoadFault{"loader userById: a row of the key '1' for the key '1.0'", false}))
}

func TestALoaderThatFoldsComparesKeysWithoutTheirCase(t *testing.T) {
	bindings := strings.Replace(read("bindings.txt"), "userById users by id", "userById users by name fold", 1)
	server := must(Open(read("schema.graphql"), bindings))
	defer server.Close()
	users := func(context.Context, []Key) (Rows, error) {
		return Rows{Columns: []string{"name"}, Rows: [][]any{{"Ada"}}}, nil
	}
	text := answer(server.AnswerText(context.Background(), Request{Query: `{user(id:"aDA"){name}}`}, Loaders{"userById": users}, nil))
	expect(t, "folded", text, `{"data":{"user":{"name":"Ada"}}}`)
}

func TestRowsKeepTheirOrderWithinAKeyAsItsLoaderComparesIt(t *testing.T) {
	schema := "type Query { named(name: String!): [User!]! } type User { id: ID age: Int }"
	server := must(Open(schema, "bindings 2\nloader byName users by name fold\nfield Query.named many byName arg name\n"))
	defer server.Close()
	rows := [][]any{{2, "bob", 7}, {1, "ADA", 36}, {3, "Ada", []int{7}}}
	loaders := Loaders{"byName": func(context.Context, []Key) (Rows, error) {
		return Rows{Columns: []string{"id", "name", "age"}, Rows: rows}, nil
	}}
	client := must(server.Client(loaders, nil))
	defer client.Close()
	response := must(client.Answer(context.Background(), Request{Query: `{a:named(name:"aDA"){id} b:named(name:"Bob"){id age}}`}))
	expect(t, "data", string(response.Data), `{"a":[{"id":"1"},{"id":"3"}],"b":[{"id":"2","age":null}]}`)
	why := "loader byName, column age, row 2 of the key 'aDA': a value of type []int has no text"
	expect(t, "unread", response.Errors[0].Message, why)
	expect(t, "restarted", client.Restart(), nil)
	rows = append(rows, []any{4, "Éva", 1})
	why = "loader byName: row 4 has the key 'Éva' in column name, which wasn't asked for"
	for _, outcome := range must(client.LoadMany(context.Background(), "byName", Key{"aDA"}, Key{"Bob"})) {
		expect(t, "not asked", outcome, Loaded{Err: &LoadFault{why, true}})
	}
	expect(t, "primed", must(client.Prime("byName", Key{"ADA"}, Rows{Columns: []string{"name"}, Rows: [][]any{{"aDa"}, {"Ada"}}})), true)
}

func TestValuesBecomeTexts(t *testing.T) {
	type id int64
	name, none := "Ada", (*string)(nil)
	cases := []struct {
		value any
		text  string
	}{
		{nil, ""}, {none, ""}, {&name, "Ada"}, {"é", "é"}, {true, "true"}, {id(-7), "-7"}, {uint64(1<<64 - 1), "18446744073709551615"},
		{1.5, "1.5"}, {1e6, "1000000"}, {float32(0.1), "0.1"}, {1e21, "1e+21"}, {sql.NullString{}, ""}, {sql.NullInt64{Int64: 3, Valid: true}, "3"},
		{[]byte("é"), "é"}, {[]byte(nil), ""}, {sql.RawBytes("raw"), "raw"}, {json.RawMessage(`{"a":1}`), `{"a":1}`}, {&[]byte{'x'}, "x"},
		{time.Date(2020, 1, 2, 3, 4, 5, 6e6, time.FixedZone("", 3600)), "2020-01-02T02:04:05.006Z"},
	}
	for _, each := range cases {
		expect(t, each.value, must(textOf(each.value)), each.text)
	}
	for _, value := range []any{math.NaN(), math.Inf(1), float32(math.Inf(-1)), sql.NullFloat64{Float64: math.NaN(), Valid: true}, [1]byte{}} {
		if text, err := textOf(value); err == nil {
			t.Errorf("%v has the text %s", value, text)
		}
	}
}

func TestTheLibraryHasTheVersionOfTheHeader(t *testing.T) {
	cases := []struct {
		version uint32
		text    string
	}{
		{0x20100, ""}, {0x20101, ""}, {0x20200, ""}, {0x20000, "2.0.0"}, {0x200FF, "2.0.255"}, {0x10200, "1.2.0"}, {0x30000, "3.0.0"},
	}
	for _, each := range cases {
		var wanted error
		if each.text != "" {
			wanted = fmt.Errorf("librudzkvano_c.so is version %s of the library, and this package needs 2.1.0 or a later 2.x", each.text)
		}
		expect(t, each.version, checkVersion(each.version), wanted)
	}
}

func TestASchemaIsRefusedInASentence(t *testing.T) {
	cases, err := os.ReadFile("../schema_faults.txt")
	if err != nil {
		t.Fatal(err)
	}
	escapes := strings.NewReplacer(`\n`, "\n", `\r`, "\r", `\t`, "\t", `\\`, `\`)
	for _, line := range strings.Split(strings.TrimSuffix(string(cases), "\n"), "\n") {
		parts := strings.Split(escapes.Replace(strings.ReplaceAll(line, "\t", "\x00")), "\x00")
		server, err := Open(parts[1], parts[2])
		if parts[0] == "" {
			expect(t, "taken", err, error(nil))
			server.Close()
			continue
		}
		fault, is := err.(*SchemaFault)
		expect(t, parts[0], is, true)
		text := map[bool]string{false: "schema", true: "bindings"}[fault.InBindings]
		place := fmt.Sprintf("S%d at %s:%d:%d: ", fault.Number, text, fault.Line, fault.Column)
		expect(t, parts[0], err.Error(), parts[0])
		expect(t, parts[0], place+fault.Reason, parts[0])
	}
	_, err = Open("\xff", "bindings 1\n")
	expect(t, "no UTF-8", err.(*Error).Name, "RZ_NOT_UTF8")
}

func TestLimitsAreKept(t *testing.T) {
	world := readWorld("")
	defer world.server.Close()
	request := Request{Query: "query($ids: [ID!]!){usersByIds(ids:$ids){best{id}}}", Variables: map[string]any{"ids": []int{1, 2, 3}}}
	whole := `{"data":{"usersByIds":[{"best":{"id":"2"}},{"best":{"id":"1"}},{"best":null}]}}`
	cases := []struct {
		options Options
		batches []string
		text    string
	}{
		{Options{MaxBatch: 2}, []string{"1 userById [[1 ] [2 ]] <nil>", "1 userById [[3 ]] <nil>"}, whole},
		{Options{MaxBatch: 2, MaxBatchOf: map[string]int{"userById": 0}}, []string{"1 userById [[1 ] [2 ] [3 ]] <nil>"}, whole},
		{Options{MaxAnswer: 30}, []string{"1 userById [[1 ] [2 ] [3 ]] <nil>"}, `{"errors":[{"message":"answer too long"}]}`},
		{Options{MaxBatch: 65536}, nil, refusal(-6).Error()},
		{Options{MaxBatch: -1}, nil, refusal(-6).Error()},
		{Options{MaxBatchOf: map[string]int{"userById": -1}}, nil, refusal(-6).Error()},
		{Options{MaxAnswer: -1}, nil, "MaxAnswer is -1, and not 0 or more"},
		// the positions are the response, the list and three users, two of them with a best and its id and one with null; at first the users wait
		{Options{MaxWork: 10}, []string{"1 userById [[1 ] [2 ] [3 ]] <nil>"}, whole},
		{Options{MaxWork: 9}, []string{"1 userById [[1 ] [2 ] [3 ]] <nil>"}, `{"errors":[{"message":"too much work"}]}`},
		{Options{MaxWork: 4}, nil, `{"errors":[{"message":"too much work"}]}`},
		{Options{MaxRounds: 1}, []string{"1 userById [[1 ] [2 ] [3 ]] <nil>"}, whole},
		{Options{MaxRounds: 1 << 40}, []string{"1 userById [[1 ] [2 ] [3 ]] <nil>"}, whole},
		{Options{MaxWork: -1}, nil, "MaxWork is -1, and not 0 or more"},
		{Options{MaxRounds: -1}, nil, "MaxRounds is -1, and not 0 or more"},
	}
	for _, each := range cases {
		var batches []string
		each.options.OnRound = func(round Round) {
			for _, ran := range round.Batches {
				batches = append(batches, fmt.Sprintln(round.Round, ran.Loader, ran.Keys, ran.Err))
			}
		}
		text := answer(world.server.AnswerText(context.Background(), request, world.loaders(true, now), &each.options))
		expect(t, each.options, text, each.text)
		expect(t, each.options, strings.Join(batches, ""), strings.Join(append(each.batches, ""), "\n"))
	}
}

func TestRoundsAreLimited(t *testing.T) {
	world := readWorld("")
	defer world.server.Close()
	client := must(world.server.Client(world.loaders(true, now), &Options{MaxRounds: 1}))
	defer client.Close()
	request := Request{Query: "{user(id:1){best{name}}}"}
	expect(t, "two rounds", answer(client.AnswerText(context.Background(), request)), `{"errors":[{"message":"too many rounds"}]}`)
	expect(t, "the second alone", answer(client.AnswerText(context.Background(), request)), `{"data":{"user":{"best":{"name":"Bob"}}}}`)
}

func TestACancelledAnswerAsksNoFurtherBatch(t *testing.T) {
	world := readWorld("")
	defer world.server.Close()
	ctx, cancel := context.WithCancel(context.Background())
	loaders := world.loaders(true, now)
	posts := loaders["postsByAuthor"]
	loaders["postsByAuthor"] = func(ctx context.Context, keys []Key) (Rows, error) {
		cancel()
		return posts(ctx, keys)
	}
	client := must(world.server.Client(loaders, nil))
	defer client.Close()
	request := Request{Query: "{users{posts{author{name}}}}"}
	_, err := client.AnswerText(ctx, request)
	expect(t, "cancelled", err, context.Canceled)
	expect(t, "asked after it", len(must(client.Log("userById"))), 0)
	deadline, stop := context.WithTimeout(context.Background(), time.Millisecond)
	defer stop()
	loaders["allUsers"] = func(context.Context, []Key) (Rows, error) { time.Sleep(time.Second); return Rows{}, nil }
	_, err = world.server.AnswerText(deadline, request, loaders, nil)
	expect(t, "late", err, context.DeadlineExceeded)
	// the client goes on
	text := answer(client.AnswerText(context.Background(), Request{Query: "{users{id}}"}))
	expect(t, "after it", text, `{"data":{"users":[{"id":"1"},{"id":"2"},{"id":"3"},{"id":"4"}]}}`)
}

func TestAClientKeepsWhatItKnows(t *testing.T) {
	world := readWorld("")
	client := must(world.server.Client(world.loaders(true, now), nil))
	world.server.Close()
	eve := Rows{Columns: []string{"id", "name"}, Rows: [][]any{{1, "Eve"}}}
	user := Request{Query: "{user(id:1){name}}"}
	ctx := context.Background()
	expect(t, "primed", []bool{must(client.Prime("userById", Key{"1"}, eve)), must(client.Prime("userById", Key{"1"}, eve))}, []bool{true, false})
	expect(t, "known", answer(client.AnswerText(ctx, user)), `{"data":{"user":{"name":"Eve"}}}`)
	expect(t, "cleared", []bool{must(client.Clear("userById", Key{"1"})), must(client.Clear("userById", Key{"1"}))}, []bool{true, false})
	response := must(client.Answer(ctx, user))
	expect(t, "asked", string(response.Data), `{"user":{"name":"Ada"}}`)
	expect(t, "log", must(client.Log("userById")), []Batch{{1, true, []Key{{"1"}}}})
	expect(t, "cleared all", client.ClearAll("userById"), nil)
	expect(t, "primed all", must(client.Prime("allUsers", Key{}, Rows{})), true)
	expect(t, "no users", answer(client.AnswerText(ctx, Request{Query: "{users{id}}"})), `{"data":{"users":[]}}`)
	expect(t, "restarted", client.Restart(), nil)
	expect(t, "forgotten", len(must(client.Log("userById"))), 0)
	_, err := client.Prime("userById", Key{"2"}, eve)
	expect(t, "another key", err.Error(), "loader userById: row 1 has the key '1' in column id, which wasn't asked for")
	_, err = client.Clear("nobody", Key{"1"})
	expect(t, "unknown", err.Error(), "the bindings have no loader nobody")
	_, err = world.server.Client(Loaders{"nobody": nil}, nil)
	expect(t, "unknown", err.Error(), "the bindings have no loader nobody")
	client.Close()
	expect(t, "closed", client.Restart().(*Error).Name, "RZ_BAD_HANDLE")
}

// names has the names of the rows of each key, or its fault.
func names(loaded []Loaded) []string {
	told := make([]string, len(loaded))
	for key, of := range loaded {
		for _, row := range of.Rows {
			told[key] += row.Get("name")
		}
		if of.Err != nil {
			told[key] = fmt.Sprintf("%v: %s", of.Err.OfBatch, of.Err)
		}
	}
	return told
}

func TestKeysAreLoadedOverWhatAClientKnows(t *testing.T) {
	world := readWorld("")
	defer world.server.Close()
	client := must(world.server.Client(world.loaders(true, now), nil))
	defer client.Close()
	ctx := context.Background()
	eve := Rows{Columns: []string{"id", "name", "no"}, Rows: [][]any{{1, "Eve", nil}}}
	expect(t, "primed", must(client.Prime("userById", Key{"1"}, eve)), true)
	loaded := must(client.LoadMany(ctx, "userById", Key{"1"}, Key{"2"}, Key{"2"}))
	expect(t, "names", names(loaded), []string{"Eve", "Bob", "Bob"})
	expect(t, "row", loaded[0].Rows, []LoadedRow{{[]string{"id", "name", "no"}, []string{"1", "Eve", ""}}})
	expect(t, "log", must(client.Log("userById")), []Batch{{1, true, []Key{{"2"}}}})
	expect(t, "known", must(client.LoadMany(ctx, "userById", Key{"2"})), loaded[1:2])
	expect(t, "no keys", len(must(client.LoadMany(ctx, "userById"))), 0)
	expect(t, "no rows", names(must(client.LoadMany(ctx, "userById", Key{"99"}))), []string{""})
	expect(t, "all", len(must(client.LoadMany(ctx, "allUsers", Key{}))[0].Rows), 4)
	expect(t, "answer", answer(client.AnswerText(ctx, Request{Query: "{user(id:2){name}}"})), `{"data":{"user":{"name":"Bob"}}}`)
	expect(t, "asked", len(must(client.Log("userById"))), 2)
	_, err := client.LoadMany(ctx, "nobody", Key{"1"})
	expect(t, "unknown", err.Error(), "the bindings have no loader nobody")
}

func TestLoadedKeysTellTheirFaults(t *testing.T) {
	world := readWorld("")
	defer world.server.Close()
	asks := func(_ context.Context, keys []Key) (Rows, error) {
		switch keys[0][0] {
		case "3":
			return Rows{Columns: []string{"name"}, Items: []Item{{Err: errors.New("gone")}}}, nil
		case "4":
			return Rows{}, errors.New("down")
		}
		return Rows{Columns: []string{"name"}, Items: []Item{{Rows: [][]any{{keys[0][0]}}}}}, nil
	}
	client := must(world.server.Client(Loaders{"userById": asks}, &Options{MaxBatch: 1}))
	defer client.Close()
	for turn := 0; turn < 2; turn++ {
		loaded := must(client.LoadMany(context.Background(), "userById", Key{"1"}, Key{"3"}, Key{"4"}))
		expect(t, "names", names(loaded), []string{"1", "false: gone", "true: down"})
	}
	expect(t, "asked", len(must(client.Log("userById"))), 4)
	done, cancel := context.WithCancel(context.Background())
	cancel()
	_, err := client.LoadMany(done, "userById", Key{"5"})
	expect(t, "cancelled", err, context.Canceled)
	expect(t, "known", names(must(client.LoadMany(context.Background(), "userById", Key{"1"}))), []string{"1"})
}

func TestASecondRequestOfAClientIsRefused(t *testing.T) {
	world := readWorld("")
	defer world.server.Close()
	loaders, asked, goOn := world.loaders(true, now), make(chan bool), make(chan bool)
	users := loaders["allUsers"]
	loaders["allUsers"] = func(ctx context.Context, keys []Key) (Rows, error) {
		asked <- true
		<-goOn
		return users(ctx, keys)
	}
	client := must(world.server.Client(loaders, nil))
	defer client.Close()
	done := make(chan string)
	request := Request{Query: "{users{id}}"}
	go func() { done <- answer(client.AnswerText(context.Background(), request)) }()
	<-asked
	_, err := client.AnswerText(context.Background(), request)
	expect(t, "second", err.(*Error).Name, "RZ_BUSY")
	expect(t, "clear", client.ClearAll("allUsers").(*Error).Name, "RZ_BUSY")
	close(goOn)
	expect(t, "first", <-done, `{"data":{"users":[{"id":"1"},{"id":"2"},{"id":"3"},{"id":"4"}]}}`)
}

func TestAPanicGoesThrough(t *testing.T) {
	world := readWorld("")
	defer world.server.Close()
	loaders := world.loaders(true, now)
	loaders["allUsers"] = func(context.Context, []Key) (Rows, error) { panic("a batch function panics") }
	func() {
		defer func() { expect(t, "panic", recover(), "a batch function panics") }()
		_, _ = world.server.Answer(context.Background(), Request{Query: "{users{id}}"}, loaders, nil)
	}()
	text := answer(world.server.AnswerText(context.Background(), Request{JSON: world.requests[0]}, world.loaders(true, now), nil))
	expect(t, "after it", text, string(world.answers[0]))
}

func TestAResponseHasItsErrors(t *testing.T) {
	world := readWorld("")
	defer world.server.Close()
	response := must(world.server.Answer(context.Background(), Request{Query: "{users{name}}"}, world.loaders(true, now), nil))
	wanted := []ResponseError{{"null where the type is non-null", []Location{{1, 8}}, []any{"users", 3.0, "name"}}}
	expect(t, "errors", response.Errors, wanted)
	expect(t, "data", string(response.Data), "null")
}

// resident is the memory of this process, in KiB.
func resident() int {
	debug.FreeOSMemory()
	pages := strings.Fields(string(must(os.ReadFile("/proc/self/statm"))))[1]
	return 4 * must(strconv.Atoi(pages))
}

// staysFlat answers some requests, and then RUDZKVANO_REQUESTS others, 10,000 by default, which take no more memory.
func staysFlat(t *testing.T, what string, first int, answer func(number int)) {
	count, err := strconv.Atoi(os.Getenv("RUDZKVANO_REQUESTS"))
	if err != nil {
		count = 10000
	}
	// malloc has an arena for each thread, which grows by itself
	runtime.LockOSThread()
	defer runtime.UnlockOSThread()
	before := 0
	for number := 0; number < first+count; number++ {
		if number == first {
			before = resident()
		}
		answer(number)
	}
	grown := resident() - before
	t.Logf("%d %s: %d KiB, grown by %d KiB", count, what, before, grown)
	if grown > 4096 {
		t.Errorf("grown by %d KiB", grown)
	}
}

func TestMemoryStaysFlat(t *testing.T) {
	cancelled, cancel := context.WithCancel(context.Background())
	cancel()
	world := readWorld("")
	defer func() { world.server.Close() }()
	staysFlat(t, "requests", 5000, func(number int) {
		if number%1000 == 999 {
			world.server.Close()
			world = readWorld("")
		}
		place, loaders, ctx := number%len(world.requests), world.loaders(number%3 == 0, now), context.Background()
		request, wanted := Request{JSON: world.requests[place]}, string(world.answers[place])
		switch number % 8 {
		case 0: // left to the garbage collector
			expect(t, number, answer(must(world.server.Client(loaders, nil)).AnswerText(ctx, request)), wanted)
		case 1:
			_, err := world.server.AnswerText(cancelled, Request{Query: "{users{id}}"}, loaders, nil)
			expect(t, number, err, context.Canceled)
		default:
			expect(t, number, answer(world.server.AnswerText(ctx, request, loaders, nil)), wanted)
		}
	})
}

// Queries that weren't asked before go to the server and to twenty clients in turn, each with other limits.
func TestMemoryStaysFlatOverNewQueries(t *testing.T) {
	world := readWorld("")
	defer world.server.Close()
	loaders, ctx := world.loaders(true, now), context.Background()
	limits, clients := make([]Options, 20), make([]*Client, 20)
	for place := range clients {
		limits[place].MaxBatch = place
		clients[place] = must(world.server.Client(loaders, &limits[place]))
		defer clients[place].Close()
	}
	staysFlat(t, "new requests", 5000, func(number int) {
		place, request := number/2%20, Request{Query: fmt.Sprintf("{a%d:user(id:1){name}}", number)}
		ask := func() ([]byte, error) { return clients[place].AnswerText(ctx, request) }
		if number%2 == 0 {
			ask = func() ([]byte, error) { return world.server.AnswerText(ctx, request, loaders, &limits[place]) }
		}
		expect(t, number, answer(ask()), fmt.Sprintf(`{"data":{"a%d":{"name":"Ada"}}}`, number))
	})
}
