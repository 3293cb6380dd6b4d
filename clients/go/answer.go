package members

import (
	"encoding/json"
	"net/netip"
	"strconv"
)

// object is an object of JSON. Its keys are looked up one by one: a field that isn't known is passed over, also one
// that differs from a known one in its case alone, and one that is missing isn't taken for an empty one.
type object map[string]json.RawMessage

func parse(body []byte) (object, error) {
	var value object
	if err := json.Unmarshal(body, &value); err != nil {
		return nil, bad("the body is no object of JSON: %w", err)
	}
	if value == nil {
		return nil, bad("the body is no object of JSON")
	}
	return value, nil
}

// reader takes the values of an object, and keeps the first fault.
type reader struct {
	from object
	err  error
}

func (r *reader) fail(key, what string) {
	if r.err != nil {
		return
	}
	value := r.from[key]
	if len(value) > 80 {
		value = value[:80]
	}
	r.err = bad("`%s` is no %s: %q", key, what, value)
}

func (r *reader) number(key string, most uint64) uint64 {
	value, err := strconv.ParseUint(string(r.from[key]), 10, 64)
	if err != nil || value > most {
		r.fail(key, "number in its range")
	}
	return value
}

func (r *reader) natural(key string) uint64 { return r.number(key, 1<<64-1) }

func (r *reader) text(key string) string {
	var value string
	raw := r.from[key]
	if len(raw) == 0 || raw[0] != '"' || json.Unmarshal(raw, &value) != nil {
		r.fail(key, "text")
	}
	return value
}

func (r *reader) name(key string) string {
	value := r.text(key)
	if !nameForm.MatchString(value) {
		r.fail(key, "name")
	}
	return value
}

func (r *reader) truth(key string) bool {
	value := string(r.from[key])
	if value != "true" && value != "false" {
		r.fail(key, "truth value")
	}
	return value == "true"
}

func (r *reader) rows(key string) []object {
	var rows []object
	raw := r.from[key]
	if len(raw) == 0 || raw[0] != '[' || json.Unmarshal(raw, &rows) != nil {
		r.fail(key, "list of objects")
	}
	return rows
}

func (r *reader) status() Status {
	value := Status(r.text("status"))
	switch value {
	case Alive, Suspect, Failed, Left:
	default:
		r.fail("status", "status")
	}
	return value
}

func (r *reader) address() netip.Addr {
	value, err := netip.ParseAddr(r.text("address"))
	if err != nil || value.Zone() != "" {
		r.fail("address", "address")
	}
	return value
}

func (r *reader) accuser() string {
	if string(r.from["accuser"]) == "null" {
		return ""
	}
	return r.name("accuser")
}

func (o object) text(key string) (string, error) {
	r := reader{from: o}
	return r.text(key), r.err
}

func (o object) member() (Member, error) {
	r := reader{from: o}
	it := Member{
		Name:        r.name("name"),
		Status:      r.status(),
		Incarnation: r.natural("incarnation"),
		Address:     r.address(),
		Port:        uint16(r.number("port", 65535)),
		Accuser:     r.accuser(),
	}
	if r.err != nil {
		return Member{}, r.err
	}
	return it, nil
}

func (o object) table() (Table, error) {
	r := reader{from: o}
	table := Table{Version: r.natural("version"), MomentMS: r.natural("moment_ms"), Name: r.name("name")}
	rows := r.rows("members")
	if r.err != nil {
		return Table{}, r.err
	}
	table.Members = make([]Member, 0, len(rows))
	for _, row := range rows {
		member, err := row.member()
		if err != nil {
			return Table{}, err
		}
		table.Members = append(table.Members, member)
	}
	return table, nil
}

func (o object) health() (Health, error) {
	r := reader{from: o}
	health := Health{
		Name:         r.name("name"),
		Score:        r.natural("score"),
		Incarnation:  r.natural("incarnation"),
		Live:         r.natural("live"),
		Known:        r.natural("known"),
		Ousted:       r.truth("ousted"),
		UptimeMS:     r.natural("uptime_ms"),
		StoodStillMS: r.natural("stood_still_ms"),
	}
	if r.err != nil {
		return Health{}, r.err
	}
	return health, nil
}

// change gives what an object of the changes says. If a member was forgotten, only its name is read.
func (o object) change() (Change, error) {
	r := reader{from: o}
	change := Change{Version: r.natural("version"), MomentMS: r.natural("moment_ms")}
	if r.text("status") == string(Forgotten) {
		change.Member = Member{Name: r.name("name"), Status: Forgotten}
		return change, r.err
	}
	if r.err != nil {
		return Change{}, r.err
	}
	member, err := o.member()
	change.Member = member
	return change, err
}

// news is an answer with changes.
type news struct {
	version uint64
	missed  bool
	changes []Change
}

func (o object) news() (news, error) {
	r := reader{from: o}
	it := news{version: r.natural("version"), missed: r.truth("missed")}
	rows := r.rows("changes")
	if r.err != nil {
		return news{}, r.err
	}
	for _, row := range rows {
		change, err := row.change()
		if err != nil {
			return news{}, err
		}
		it.changes = append(it.changes, change)
	}
	return it, nil
}
