// The rows of tokens under what a caller states and requires, those of SECURITY's checklist among them.

package cose_test

import (
	"errors"
	"fmt"
	"strings"
	"testing"
	"time"

	"cose"
)

// ---- tokens under terms and requirements

func (g *group) terms(large bool) (*cose.Terms, error) {
	terms := &cose.Terms{
		Options:     cose.Options{AAD: g.AAD, Wanted: kinds[g.Wanted], Large: large},
		Algorithms:  g.Algorithms,
		LeastSecret: g.LeastSecret,
		ShortMAC:    g.ShortMAC,
		WithoutAlg:  g.WithoutAlg,
	}
	if g.PayloadLimit != nil {
		terms.PayloadLimit = *g.PayloadLimit
	}
	for _, label := range g.Understood {
		number, is := label.(float64)
		if !is {
			return nil, leftOut("a label that is a text is understood")
		}
		terms.Understood = append(terms.Understood, int64(number))
	}
	return terms, nil
}

// durationOf is a number of seconds.
func durationOf(text *string) time.Duration {
	if text == nil {
		return 0
	}
	return time.Duration(number(*text).Int64()) * time.Second
}

func (g *group) requirements() *cose.Requirements {
	requirements := &cose.Requirements{
		CurrentTime: time.Unix(number(*g.Now).Int64(), 0),
		Leeway:      time.Duration(g.Leeway) * time.Second,
		Issuer:      g.Iss,
		Subject:     g.Sub,
		Audience:    g.Aud,
		MaxLifetime: durationOf(g.Lifetime),
		MaxAge:      durationOf(g.Age),
		WithoutExp:  g.WithoutExp,
	}
	for _, name := range g.Present {
		for claim := cose.ClaimIss; claim <= cose.ClaimCti; claim++ {
			if cose.Requirement(claim).String() == name {
				requirements.Present = append(requirements.Present, claim)
			}
		}
	}
	return requirements
}

// required is the answer for claims, or which requirement they don't meet.
func required(claims *cose.Claims, err error) string {
	var unmet *cose.Unmet
	if errors.As(err, &unmet) {
		return fmt.Sprintf("unmet %v %d", unmet.Requirement, unmet.Place)
	}
	return admitted(claims, err)
}

// wanted is the answer of a row under terms and requirements.
func (r *result) wanted() string {
	switch r.Verdict {
	case "admitted":
		return "claims " + wantedClaims(r.Claims)
	case "unmet":
		name := r.Claim
		if name == "" {
			name = strings.ToLower(r.Requirement)
		}
		return fmt.Sprintf("unmet %s %d", name, r.Place)
	case "accepted", "dropped":
		return r.Verdict
	}
	return r.refusal(strings.ReplaceAll(r.Verdict, " message", ""))
}

// claimsIn is the answer for the claims of a message, or for the message where it is refused.
func claimsIn(g *group, message *cose.Message, err error, large bool) string {
	if err != nil {
		return refusal(err)
	}
	return required(cose.AdmitClaims(message.Payload, g.requirements(), large))
}

func runTerms(g *group, r *row) error {
	wanted := r.Result.wanted()
	for _, large := range []bool{false, true} {
		terms, err := g.terms(large)
		if err != nil {
			return err
		}
		if err = differs("Admit", required(cose.Admit(g.Keys, r.Token, g.requirements(), terms)), wanted); err != nil {
			return err
		}
		message, err := cose.Authenticate(g.Keys, r.Token, terms)
		if err = differs("Authenticate and AdmitClaims", claimsIn(g, message, err, large), wanted); err != nil {
			return err
		}
		// a verifier keeps no labels, and uses no byte after the message
		if len(terms.Understood) > 0 || r.Result.Reason == "Trailing" {
			continue
		}
		if err = runTermsKey(g, r, terms); err != nil {
			return err
		}
		for _, size := range []int{1, 7, 64} {
			seen := inPiecesUnder(g, r.Token, terms, size)
			if err = differs(fmt.Sprintf("NewVerifierUnder, pieces of %d", size), seen, wanted); err != nil {
				return err
			}
		}
	}
	return runTermsInTable(g, r.Token, wanted)
}

// askedForKey is how many times a row of terms was asked for its key.
var askedForKey int

// runTermsKey has the key of the token in memory, and of one that is fed, where one fits: alone it authenticates the token.
func runTermsKey(g *group, r *row, terms *cose.Terms) error {
	fits := r.Result.Verdict != "refused message"
	if !fits && r.Result.Reason != "NoKey" {
		return nil
	}
	v, err := cose.NewVerifier(g.Keys, &cose.Options{Large: terms.Large})
	if err != nil {
		return err
	}
	defer v.Close()
	// without the terms more keys may fit, and the message is refused after its headers
	_, _ = v.Feed(r.Token)
	ofMac := *terms
	ofMac.Wanted = cose.Mac0
	for name, keyOf := range map[string]func() (uint64, []byte, error){
		"KeyOf":          func() (uint64, []byte, error) { return cose.KeyOf(g.Keys, r.Token, &ofMac) },
		"Verifier.KeyOf": func() (uint64, []byte, error) { return v.KeyOf(g.Keys, &ofMac) },
	} {
		_, item, err := keyOf()
		if (err == nil) != fits || err != nil && !errors.Is(err, cose.ErrNoKey) {
			return fmt.Errorf("%s: %v", name, err)
		}
		if !fits {
			continue
		}
		if _, err = cose.Authenticate(item, r.Token, terms); err != nil {
			return fmt.Errorf("Authenticate by the key of %s: %v", name, err)
		}
	}
	askedForKey++
	return nil
}

// throughTable is how many rows of each file went through a table too.
var throughTable = map[string]int{}

// runTermsInTable has the token under a table that is read once: no call changes it.
func runTermsInTable(g *group, token []byte, wanted string) error {
	terms, err := g.terms(false)
	if err != nil {
		return err
	}
	table, err := cose.NewTermsTable(g.Keys, terms)
	if err != nil {
		return err
	}
	defer table.Close()
	for turn := 0; turn < 2; turn++ {
		if err = differs("TermsTable.Admit", required(table.Admit(token, g.requirements())), wanted); err != nil {
			return err
		}
		message, err := table.Authenticate(token)
		if err = differs("TermsTable.Authenticate", claimsIn(g, message, err, false), wanted); err != nil {
			return err
		}
	}
	throughTable["terms"]++
	return nil
}

// inPiecesUnder is the answer for a token that is fed under terms, and for its claims.
func inPiecesUnder(g *group, token []byte, terms *cose.Terms, size int) string {
	v, err := cose.NewVerifierUnder(g.Keys, terms)
	if err != nil {
		return refusal(err)
	}
	defer v.Close()
	var payload []byte
	for at := 0; at < len(token); at += size {
		end := at + size
		if end > len(token) {
			end = len(token)
		}
		fed, err := v.Feed(token[at:end])
		if err != nil {
			return refusal(err)
		}
		payload = append(payload, fed.Payload...)
	}
	if err = v.End(); err != nil {
		return refusal(err)
	}
	if _, err = v.Verdict(); err != nil {
		return refusal(err)
	}
	return required(cose.AdmitClaims(payload, g.requirements(), terms.Large))
}

// ---- the lines of SECURITY's checklist

// hasParameters says whether the buckets have the parameters without which the caller drops a message.
func (g *group) hasParameters(message []byte, options *cose.Options) bool {
	for bucket, labels := range map[cose.Bucket][]int64{cose.Protected: g.Protected, cose.Unprotected: g.Unprotected} {
		for _, label := range labels {
			if _, err := cose.Parameter(message, bucket, label, options); err != nil {
				return false
			}
		}
	}
	return true
}

// checked is what a caller who follows the checklist makes of a message: the safe calls, with what it states.
func (g *group) checked(r *row, large bool) (string, error) {
	terms, err := g.terms(large)
	if err != nil {
		return "", err
	}
	terms.ECDSA = r.ecdsa
	if r.Payload != nil {
		_, err = cose.AuthenticateDetached(g.Keys, r.Token, r.Payload, terms)
	} else {
		_, err = cose.Admit(g.Keys, r.Token, g.requirements(), terms)
	}
	switch {
	case err != nil:
		return required(nil, err), nil
	case g.hasParameters(r.Token, &terms.Options):
		return "accepted", nil
	}
	return "dropped", nil
}

// checkedInTable is the same by a table, which has no call for a detached payload.
func (g *group) checkedInTable(r *row) (string, error) {
	terms, err := g.terms(false)
	if err != nil {
		return "", err
	}
	terms.ECDSA = r.ecdsa
	table, err := cose.NewTermsTable(g.Keys, terms)
	if err != nil {
		return "", err
	}
	defer table.Close()
	throughTable["checklist"]++
	_, err = table.Admit(r.Token, g.requirements())
	switch {
	case err != nil:
		return required(nil, err), nil
	case g.hasParameters(r.Token, &terms.Options):
		return "accepted", nil
	}
	return "dropped", nil
}

func runChecklist(g *group, r *row) error {
	for _, large := range []bool{false, true} {
		if large && r.Result.Reason == "PastRoom" {
			continue
		}
		seen, err := g.checked(r, large)
		if err != nil {
			return err
		}
		if err = differs(fmt.Sprintf("line %d", g.Line), seen, r.Result.wanted()); err != nil {
			return err
		}
	}
	if r.Payload != nil {
		return nil
	}
	seen, err := g.checkedInTable(r)
	if err != nil {
		return err
	}
	return differs(fmt.Sprintf("line %d, TermsTable", g.Line), seen, r.Result.wanted())
}

// TestRowsForKey says how many rows of terms are asked for their key, in both sizes: all but seven, with labels that are understood, or
// that are refused for another reason than NoKey.
func TestRowsForKey(t *testing.T) {
	askedForKey = 0
	rows, groups := 0, groupsOf(t, "terms")
	for i := range groups {
		for j := range groups[i].Tests {
			rows++
			if err := runTerms(&groups[i], &groups[i].Tests[j]); err != nil {
				t.Error(groups[i].Tests[j].TcID, err)
			}
		}
	}
	if rows != askedForKey/2+7 {
		t.Errorf("%d of %d rows are asked for their key", askedForKey/2, rows)
	}
}

// TestRowsInTable says how many rows go through a table: of the checklist all but those with a detached payload.
func TestRowsInTable(t *testing.T) {
	for schema, run := range map[string]func(*group, *row) error{"terms": runTerms, "checklist": runChecklist} {
		throughTable[schema] = 0
		attached, groups := 0, groupsOf(t, schema)
		for i := range groups {
			for j := range groups[i].Tests {
				r := &groups[i].Tests[j]
				if r.Payload == nil {
					attached++
				}
				if err := run(&groups[i], r); err != nil {
					t.Error(schema, r.TcID, err)
				}
			}
		}
		if throughTable[schema] != attached || attached < 50 {
			t.Errorf("%s: %d rows through a table, and not %d", schema, throughTable[schema], attached)
		}
		t.Logf("%s: %d rows through a table", schema, attached)
	}
}
