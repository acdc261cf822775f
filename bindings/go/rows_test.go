// Runs the rows of rows/ through the package, and so through the C interface.
//
// rows/README.md is the schema. The interface has fixed limits: header buckets of 1,024 bytes nested 8 deep, and of 65,535 bytes
// nested 16 deep in the large size; a CWT tag may come; no label is understood in addition; payloads have no limit. A group with
// narrower limits is run too: these can change an answer only to the reasons that they give, so only rows that expect one of these
// reasons are left out. `go test -v -run Rows` prints what each file has, what is left out and why.

package cose_test

import (
	"bytes"
	"encoding/hex"
	"encoding/json"
	"errors"
	"fmt"
	"math"
	"math/big"
	"os"
	"path/filepath"
	"sort"
	"strings"
	"testing"
	"time"

	"cose"
)

type octets []byte

func (o *octets) UnmarshalText(text []byte) (err error) {
	*o, err = hex.DecodeString(string(text))
	return err
}

type group struct {
	HeaderLimit   *int
	Nesting       int
	Keys, AAD     octets
	Wanted        string
	CWT           *bool
	Understood    []any
	PayloadLimit  *uint64
	PayloadLength string
	Now           *string
	Leeway        uint32
	Audience      *[]string
	Algorithms    []cose.Algorithm
	LeastSecret   uint64
	ShortMAC      bool
	WithoutAlg    bool
	Present       []string
	Iss, Sub, Aud *string
	Lifetime, Age *string
	WithoutExp    bool
	Line          int
	Protected     []int64
	Unprotected   []int64
	Place         uint64
	Table         *int
	Key           octets
	Tests         []row
}

type row struct {
	TcID      int
	Comment   string
	Message   octets
	Payload   octets
	Token     octets
	Key, Set  octets
	Signature *struct {
		Digest, Signature octets
		Holds             bool
	}
	Alg           any
	KID           *octets
	AAD           octets
	PayloadLength string
	Result        result
}

type result struct {
	Verdict, Kind string
	Alg           any
	Payload       any
	Taken         *int
	PayloadTaken  int
	Reason        string
	Requirement   string
	Claim         string
	Place         uint64
	Auth          uint64
	Claims        map[string]any
	Usable        int
	Message       octets
	Left          int
}

var cuts = []int{1, 2, 7, 64, 65_536}

var kinds = map[string]cose.Kind{"tagged": cose.Tagged, "mac0": cose.Mac0, "sign1": cose.Sign1}

var limits = map[bool]struct{ header, nesting int }{false: {1_024, 8}, true: {65_535, 16}}

// leftOut is a row that the interface can't ask, and why.
type leftOut string

func (l leftOut) Error() string { return string(l) }

// differs is a row that is answered otherwise.
func differs(how, seen, wanted string) error {
	if seen == wanted {
		return nil
	}
	return fmt.Errorf("%s: %s, and not %s", how, seen, wanted)
}

// sizes are those (whether large) that answer a row of a group as its own limits do.
func (g *group) sizes(reason string) ([]bool, error) {
	if len(g.Understood) > 0 {
		return nil, leftOut("labels are understood")
	}
	if reason == "PayloadTooLong" && g.PayloadLimit != nil {
		return nil, leftOut("its limit of the payload is the reason")
	}
	if reason == "WrongTag" && g.CWT != nil && !*g.CWT {
		return nil, leftOut("no CWT tag may come")
	}
	var found []bool
	for _, large := range []bool{false, true} {
		most := limits[large]
		header := most.header
		if g.HeaderLimit != nil {
			header = *g.HeaderLimit
		}
		if header > most.header || g.Nesting > most.nesting ||
			(reason == "PastRoom" && header < most.header) || (reason == "TooDeep" && g.Nesting < most.nesting) {
			continue
		}
		found = append(found, large)
	}
	if found == nil {
		return nil, leftOut("its limits of headers are others")
	}
	return found, nil
}

// ecdsa says what a row says of its signature: asked about anything else, the contrary.
func (r *row) ecdsa(input *cose.SignInput) (bool, error) {
	said := r.Signature
	if said == nil {
		return false, nil
	}
	if bytes.Equal(input.Digest, said.Digest) && bytes.Equal(input.Signature, said.Signature) {
		return said.Holds, nil
	}
	return !said.Holds, nil
}

func (g *group) options(r *row, large bool) *cose.Options {
	return &cose.Options{AAD: g.AAD, Wanted: kinds[g.Wanted], ECDSA: r.ecdsa, Large: large}
}

// refusal is what an error says, as rows have it.
func refusal(err error) string {
	var refused *cose.Refused
	var keys *cose.KeysRefused
	switch {
	case errors.As(err, &refused) && refused.Claims:
		return fmt.Sprintf("refused claims %v %d", refused.Reason, refused.Place)
	case errors.As(err, &refused):
		return fmt.Sprintf("refused %v %d", refused.Reason, refused.Place)
	case errors.As(err, &keys):
		return fmt.Sprintf("refused %v %d", keys.Reason, keys.Place)
	}
	return err.Error()
}

func (r *result) refusal(verdict string) string {
	return fmt.Sprintf("%s %s %d", verdict, r.Reason, r.Place)
}

func truncated(end int) string { return fmt.Sprintf("refused Truncated %d", end) }

func (r *result) expected(payload string) string {
	if r.Verdict != "authentic" {
		return r.refusal("refused")
	}
	return fmt.Sprintf("authentic %s %v %s %d", r.Kind, r.Alg, payload, *r.Taken)
}

func (r *result) isGood() bool { return r.Verdict == "authentic" }

// ---- messages

func whole(message *cose.Message, err error) string {
	if err != nil {
		return refusal(err)
	}
	return fmt.Sprintf("authentic %v %d %x %d", message.Kind, message.Algorithm, message.Payload, message.Taken)
}

func decided(verdict *cose.Verdict, err error) string {
	if err != nil {
		return refusal(err)
	}
	return fmt.Sprintf("authentic %v %d %d %d", verdict.Kind, verdict.Algorithm, verdict.PayloadLength, verdict.Taken)
}

// runWhole is one call: what decides it, all bytes, and each shorter prefix of an authentic message.
func (r *row) runWhole(call func([]byte) (*cose.Message, error)) error {
	taken, wanted := *r.Result.Taken, r.Result.expected(fmt.Sprint(r.Result.Payload))
	if err := differs("Verify", whole(call(r.Message[:taken])), wanted); err != nil {
		return err
	}
	for end := 0; r.Result.isGood() && end < taken; end++ {
		if err := differs("Verify, a prefix", whole(call(r.Message[:end])), truncated(end)); err != nil {
			return err
		}
	}
	if len(r.Message) > taken {
		// a byte after the message goes before the question whether its signature is good
		if r.Result.isGood() || r.Signature != nil {
			wanted = fmt.Sprintf("refused Trailing %d", taken)
		}
		return differs("Verify, all bytes", whole(call(r.Message)), wanted)
	}
	return nil
}

// feed feeds a message in pieces, up to its payload where that is detached.
func feed(v interface {
	Feed([]byte) (cose.Fed, error)
}, message []byte, size int, came *bytes.Buffer) (used int, err error) {
	for at := 0; at < len(message); at += size {
		end := at + size
		if end > len(message) {
			end = len(message)
		}
		fed, err := v.Feed(message[at:end])
		if err != nil {
			return used, err
		}
		came.Write(fed.Payload)
		used += fed.Used
		if fed.Status == cose.PayloadNext {
			break
		}
	}
	return used, nil
}

func (g *group) runPieces(r *row, open opener, large bool, size int) error {
	v, err := open(g.options(r, large))
	if err != nil {
		return differs("NewVerifier", refusal(err), r.Result.refusal("refused"))
	}
	defer v.Close()
	var came bytes.Buffer
	length := 0
	if r.Result.isGood() {
		length = len(fmt.Sprint(r.Result.Payload)) / 2
	}
	var verdict *cose.Verdict
	if _, err = feed(v, r.Message, size, &came); err == nil {
		verdict, err = v.Verdict()
	}
	how, wanted := fmt.Sprintf("Verifier, pieces of %d", size), r.Result.expected(fmt.Sprint(length))
	if err = differs(how, decided(verdict, err), wanted); err != nil {
		return err
	}
	counts, err := v.Counts()
	if err != nil {
		return err
	}
	if err = differs(how+", taken", fmt.Sprint(counts.Taken), fmt.Sprint(*r.Result.Taken)); err != nil || !r.Result.isGood() {
		return err
	}
	return differs(how+", payload", hex.EncodeToString(came.Bytes()), fmt.Sprint(r.Result.Payload))
}

// runReader is the same from a reader, which keeps what follows an authentic message.
func (g *group) runReader(r *row, large bool) error {
	v, err := cose.NewVerifier(g.Keys, g.options(r, large))
	if err != nil || len(r.Message) == 0 {
		return err
	}
	defer v.Close()
	var came bytes.Buffer
	reader := bytes.NewReader(r.Message)
	verdict, err := v.VerifyFrom(reader, &came)
	wanted := r.Result.expected(fmt.Sprint(came.Len()))
	if err = differs("VerifyFrom", decided(verdict, err), wanted); err != nil || !r.Result.isGood() {
		return err
	}
	left := fmt.Sprintf("%x %d", came.Bytes(), reader.Len())
	return differs("VerifyFrom, payload", left, fmt.Sprintf("%v %d", r.Result.Payload, len(r.Message)-*r.Result.Taken))
}

func runMessage(g *group, r *row) error {
	sizes, err := g.sizes(r.Result.Reason)
	if err != nil {
		return err
	}
	for _, large := range sizes {
		options := g.options(r, large)
		err = r.runWhole(func(message []byte) (*cose.Message, error) { return cose.Verify(g.Keys, message, options) })
		if err != nil {
			return err
		}
		if table, err := cose.NewKeyTable(g.Keys); err == nil {
			err = r.runWhole(func(message []byte) (*cose.Message, error) { return table.Verify(message, options) })
			if err != nil {
				return fmt.Errorf("table: %w", err)
			}
		}
		for _, size := range cuts {
			for how, open := range openers(g.Keys) {
				if err = g.runPieces(r, open, large, size); err != nil {
					return fmt.Errorf("%s: %w", how, err)
				}
			}
			if err = g.runElsewhere(r, nil, large, size); err != nil {
				return err
			}
		}
		if err = g.runReader(r, large); err != nil {
			return err
		}
	}
	return nil
}

// ---- detached messages

// runDetachedPieces is a detached message in pieces, or its first bytes.
func (g *group) runDetachedPieces(r *row, open opener, length uint64, large bool, size, end int) error {
	v, err := open(g.options(r, large))
	if err != nil {
		return err
	}
	defer v.Close()
	message, count, came := r.Message[:end], 0, new(bytes.Buffer)
	used, err := feed(v, message, size, came)
	if err == nil {
		for at := 0; at < len(r.Payload); at += size {
			last := at + size
			if last > len(r.Payload) {
				last = len(r.Payload)
			}
			taken, err := v.FeedPayload(r.Payload[at:last])
			if err != nil {
				return err
			}
			count += taken
		}
		_, err = feed(v, message[used:], size, came)
	}
	var verdict *cose.Verdict
	if err == nil {
		verdict, err = v.Verdict()
	}
	how := fmt.Sprintf("Verifier, detached, pieces of %d", size)
	if end < len(r.Message) {
		return differs(how, decided(verdict, err), truncated(end))
	}
	if err = differs(how, decided(verdict, err), r.Result.expected(fmt.Sprint(length))); err != nil {
		return err
	}
	counts, err := v.Counts()
	if err != nil {
		return err
	}
	seen, wanted := fmt.Sprint(counts.Taken, count), fmt.Sprint(*r.Result.Taken, r.Result.PayloadTaken)
	return differs(how+", taken", seen, wanted)
}

func runDetached(g *group, r *row) error {
	sizes, err := g.sizes(r.Result.Reason)
	if err != nil {
		return err
	}
	var length uint64
	if _, err = fmt.Sscan(g.PayloadLength, &length); err != nil {
		return err
	}
	under := detachedOpeners(g.Keys, length)
	for _, large := range sizes {
		for _, size := range cuts {
			for how, open := range under {
				if err = g.runDetachedPieces(r, open, length, large, size, len(r.Message)); err != nil {
					return fmt.Errorf("%s: %w", how, err)
				}
			}
			if err = g.runElsewhere(r, &length, large, size); err != nil {
				return err
			}
		}
		for end := 0; r.Result.isGood() && end < *r.Result.Taken; end++ {
			if err = g.runDetachedPieces(r, under["keys"], length, large, 64, end); err != nil {
				return err
			}
		}
		if uint64(len(r.Payload)) < length {
			continue
		}
		content := r.Payload[:length]
		seen := whole(cose.VerifyDetached(g.Keys, r.Message[:*r.Result.Taken], content, g.options(r, large)))
		if err = differs("VerifyDetached", seen, r.Result.expected(hex.EncodeToString(content))); err != nil {
			return err
		}
		v, err := cose.NewDetachedVerifier(g.Keys, length, g.options(r, large))
		if err != nil {
			return err
		}
		if len(r.Message) > 0 {
			seen = decided(v.VerifyDetachedFrom(bytes.NewReader(r.Message), bytes.NewReader(r.Payload)))
			err = differs("VerifyDetachedFrom", seen, r.Result.expected(fmt.Sprint(length)))
		}
		v.Close()
		if err != nil {
			return err
		}
	}
	return nil
}

// ---- shapes

func runShape(g *group, r *row) error {
	sizes, err := g.sizes(r.Result.Reason)
	if err != nil || sizes[0] {
		return leftOut("its limits of headers are others")
	}
	wanted := r.Result.refusal("refused")
	if r.Result.Verdict == "shape" {
		wanted = fmt.Sprint(r.Result.Kind, r.Result.Payload, r.Result.Auth, *r.Result.Taken)
	}
	found, err := cose.ShapeOf(r.Message[:*r.Result.Taken], kinds[g.Wanted])
	if err != nil {
		return differs("ShapeOf", refusal(err), wanted)
	}
	return differs("ShapeOf", fmt.Sprint(found.Kind.String(), found.PayloadLength, found.AuthLength, found.Taken), wanted)
}

// ---- tokens

// plain has claims as rows have them, as JSON.
func plain(claims *cose.Claims) string {
	found := map[string]any{}
	for name, text := range map[string]*string{"iss": claims.Issuer, "sub": claims.Subject} {
		if text != nil {
			found[name] = *text
		}
	}
	for name, date := range map[string]*cose.Date{"exp": claims.Expires, "nbf": claims.NotBefore, "iat": claims.IssuedAt} {
		if date != nil {
			found[name] = date.String()
		}
	}
	if claims.CTI != nil {
		found["cti"] = hex.EncodeToString(claims.CTI)
	}
	if claims.Audience != nil {
		found["aud"] = claims.Audience
	}
	if claims.Confirmation != nil {
		found["cnf"] = plainConfirmation(claims.Confirmation)
	}
	return encoded(found)
}

func plainConfirmation(given *cose.Confirmation) map[string]any {
	cnf := map[string]any{}
	if given.KID != nil {
		cnf["kid"] = hex.EncodeToString(given.KID)
	}
	if key := given.Key; key != nil {
		var y any = key.Odd
		if key.Y != nil {
			y = hex.EncodeToString(key.Y)
		}
		cnf["key"] = map[string]any{"curve": key.Curve, "x": hex.EncodeToString(key.X), "y": y}
	}
	return cnf
}

func encoded(value any) string {
	text, err := json.Marshal(value)
	if err != nil {
		return err.Error()
	}
	return string(text)
}

// wantedClaims are those of a row, as far as the interface gives them: of a confirmed key its point.
func wantedClaims(said map[string]any) string {
	wanted := map[string]any{}
	for name, value := range said {
		wanted[name] = value
	}
	for _, name := range []string{"exp", "nbf", "iat"} {
		if value, is := wanted[name].(string); is {
			wanted[name] = number(value).String()
		}
	}
	if cnf, is := wanted["cnf"].(map[string]any); is {
		kept := map[string]any{}
		if kid, is := cnf["kid"]; is {
			kept["kid"] = kid
		}
		if key, is := cnf["key"].(map[string]any); is {
			kept["key"] = map[string]any{"curve": key["curve"], "x": key["x"], "y": key["y"]}
		}
		wanted["cnf"] = kept
		if len(kept) == 0 {
			delete(wanted, "cnf")
		}
	}
	return encoded(wanted)
}

func number(text string) *big.Int {
	found, is := new(big.Int).SetString(text, 10)
	if !is {
		panic("no number: " + text)
	}
	return found
}

func (g *group) policy() (*cose.Policy, error) {
	policy := &cose.Policy{CurrentTime: time.Unix(number(*g.Now).Int64(), 0), Leeway: time.Duration(g.Leeway) * time.Second}
	if g.Audience != nil {
		if len(*g.Audience) != 1 {
			return nil, leftOut("the policy has no audience or several")
		}
		policy.Audience = &(*g.Audience)[0]
	}
	return policy, nil
}

func admitted(claims *cose.Claims, err error) string {
	if err != nil {
		return refusal(err)
	}
	return "claims " + plain(claims)
}

func (r *row) runTokenUnder(call func([]byte) (*cose.Claims, error)) error {
	taken, isGood := len(r.Token), r.Result.Verdict == "admitted"
	if r.Result.Taken != nil {
		taken = *r.Result.Taken
	}
	wanted := r.Result.refusal(strings.ReplaceAll(r.Result.Verdict, " message", ""))
	if isGood {
		wanted = "claims " + wantedClaims(r.Result.Claims)
	}
	claims, err := call(r.Token[:taken])
	var refused *cose.Refused
	if errors.As(err, &refused) && !refused.Claims && refused.Reason == cose.ReasonTrailing && r.Result.Verdict == "refused claims" {
		// the row doesn't say how long its token is, after which bytes follow
		claims, err = call(r.Token[:refused.Place])
	}
	if err = differs("VerifyCWT", admitted(claims, err), wanted); err != nil {
		return err
	}
	for end := 0; isGood && end < taken; end++ {
		if err = differs("VerifyCWT, a prefix", admitted(call(r.Token[:end])), truncated(end)); err != nil {
			return err
		}
	}
	if len(r.Token) > taken {
		return differs("VerifyCWT, all bytes", admitted(call(r.Token)), fmt.Sprintf("refused Trailing %d", taken))
	}
	return nil
}

func runToken(g *group, r *row) error {
	policy, err := g.policy()
	if err != nil {
		return err
	}
	sizes, err := g.sizes(r.Result.Reason)
	if err != nil {
		return err
	}
	for _, large := range sizes {
		options := g.options(r, large)
		err = r.runTokenUnder(func(token []byte) (*cose.Claims, error) { return cose.VerifyCWT(g.Keys, token, policy, options) })
		if err != nil {
			return err
		}
		if table, err := cose.NewKeyTable(g.Keys); err == nil {
			err = r.runTokenUnder(func(token []byte) (*cose.Claims, error) { return table.VerifyCWT(token, policy, options) })
			if err != nil {
				return fmt.Errorf("table: %w", err)
			}
		}
	}
	return nil
}

// momentFor is a time at which claims are admitted, since the interface reads none without a time.
func momentFor(said map[string]any) (*big.Int, error) {
	least, most := big.NewInt(math.MinInt64), big.NewInt(math.MaxInt64)
	if nbf, is := said["nbf"].(string); is && number(nbf).Cmp(least) > 0 {
		least = number(nbf)
	}
	if exp, is := said["exp"].(string); is {
		if last := new(big.Int).Sub(number(exp), big.NewInt(1)); last.Cmp(most) < 0 {
			most = last
		}
	}
	if least.Cmp(most) > 0 {
		return nil, leftOut("there is no time at which it is admitted")
	}
	if least.Sign() < 0 {
		least = big.NewInt(0)
	}
	if least.Cmp(most) < 0 {
		return least, nil
	}
	return most, nil
}

func runClaims(g *group, r *row) (err error) {
	if g.Now == nil {
		moment := big.NewInt(0)
		if r.Result.Claims != nil {
			if moment, err = momentFor(r.Result.Claims); err != nil {
				return err
			}
		}
		now := moment.String()
		g = &group{Now: &now, HeaderLimit: g.HeaderLimit, Nesting: g.Nesting}
	}
	policy, err := g.policy()
	if err != nil {
		return err
	}
	sizes, err := g.sizes(r.Result.Reason)
	if err != nil {
		return err
	}
	wanted := r.Result.refusal("refused claims")
	if r.Result.Verdict == "claims" {
		wanted = "claims " + wantedClaims(r.Result.Claims)
	}
	for _, large := range sizes {
		if err = differs("ClaimsOf", admitted(cose.ClaimsOf(r.Payload, policy, large)), wanted); err != nil {
			return err
		}
	}
	return nil
}

// ---- keys

// setReasons are what a set is refused for; a key in it that is refused for another reason isn't usable.
var setReasons = map[string]bool{"Reserved": true, "Indefinite": true, "BadSimple": true, "TooDeep": true, "PastRoom": true, "Trailing": true}

func counted(usable int, err error) string {
	if err != nil {
		return refusal(err)
	}
	return fmt.Sprint("set ", usable)
}

func countInTable(keys []byte) (int, error) {
	table, err := cose.NewKeyTable(keys)
	if err != nil {
		return 0, err
	}
	defer table.Close()
	return table.Len(), nil
}

func runKey(g *group, r *row) error {
	if r.Result.Reason == "NotMap" {
		return leftOut("no map: as a key set it is another thing")
	}
	if len(r.Key) > 65_535 {
		return leftOut("longer than a key set")
	}
	wanted := "set 0"
	if setReasons[r.Result.Reason] {
		wanted = fmt.Sprintf("refused %s %d", r.Result.Reason, r.Result.Place-g.Place)
	} else if r.Result.Verdict == "key" {
		wanted = "set 1"
	}
	if err := differs("CountKeys", counted(cose.CountKeys(r.Key)), wanted); err != nil {
		return err
	}
	return differs("KeyTable", counted(countInTable(r.Key)), wanted)
}

func runSet(g *group, r *row) error {
	wanted := r.Result.refusal("refused")
	if r.Result.Verdict == "set" {
		wanted = fmt.Sprint("set ", r.Result.Usable)
	}
	if g.Table == nil {
		if err := differs("CountKeys", counted(cose.CountKeys(r.Set)), wanted); err != nil {
			return err
		}
	}
	if g.Table != nil && *g.Table < 64 && r.Result.Reason == "BadKeySet" {
		return leftOut("the table's size is the reason")
	}
	if r.Result.Usable > 64 {
		return nil
	}
	return differs("KeyTable", counted(countInTable(r.Set)), wanted)
}

// TestRows runs each file of rows that the interface can be asked. Of each it is said how many are left out, so that no more are.
func TestRows(t *testing.T) {
	for _, file := range []struct {
		schema  string
		run     func(*group, *row) error
		leftOut int
	}{
		{"messages", runMessage, 68},
		{"detached", runDetached, 7},
		{"shapes", runShape, 7},
		{"tokens", runToken, 4},
		{"claims", runClaims, 23},
		{"terms", runTerms, 0},
		{"checklist", runChecklist, 0},
		{"keys", runKey, 2},
		{"sets", runSet, 11},
		{"made", runMade, 1},
	} {
		t.Run(file.schema, func(t *testing.T) { runFile(t, file.schema, file.run, file.leftOut) })
	}
}

// groupsOf are the groups of rows of a file.
func groupsOf(t *testing.T, schema string) []group {
	text, err := os.ReadFile(filepath.Join("..", "..", "rows", schema+".json"))
	if err != nil {
		t.Fatal(err)
	}
	var file struct{ TestGroups []group }
	if err = json.Unmarshal(text, &file); err != nil {
		t.Fatal(err)
	}
	return file.TestGroups
}

func runFile(t *testing.T, schema string, run func(*group, *row) error, mayBeLeftOut int) {
	rows, left, differ, whys := 0, 0, 0, map[string]int{}
	groups := groupsOf(t, schema)
	for i := range groups {
		g := &groups[i]
		for j := range g.Tests {
			rows++
			err := run(g, &g.Tests[j])
			var why leftOut
			if errors.As(err, &why) {
				left++
				whys[string(why)]++
			} else if err != nil {
				differ++
				t.Errorf("%s %d, %s: %v", schema, g.Tests[j].TcID, g.Tests[j].Comment, err)
			}
		}
	}
	if left != mayBeLeftOut || rows <= left {
		t.Errorf("%d rows of %d are left out: %v", left, rows, whys)
	}
	var said []string
	for why, count := range whys {
		said = append(said, fmt.Sprintf("%s: %d", why, count))
	}
	sort.Strings(said)
	t.Logf("%s: %d rows, %d run, %d left out, %d differ (%s)", schema, rows, rows-left, left, differ, strings.Join(said, "; "))
}
