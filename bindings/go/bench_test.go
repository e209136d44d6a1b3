package nrbpf_test

import (
	"testing"

	"nrbpf"
)

// What a call costs, of one goroutine alone. `go test -bench .` with the words of `check`.
func benchmark(b *testing.B, call func(*nrbpf.Session, []byte) (nrbpf.Answer, error)) {
	store := must(nrbpf.Open(nrbpf.NewConfig(1, 1), manifest("counter")))
	session, key := must(store.Attach(0)), u32(3)
	b.ReportAllocs()
	b.ResetTimer()
	for k := 0; k < b.N; k++ {
		must(call(session, key))
	}
	b.StopTimer()
	must(0, session.Detach())
	must(0, store.Close())
}

func BenchmarkUpdate(b *testing.B) {
	benchmark(b, func(s *nrbpf.Session, key []byte) (nrbpf.Answer, error) { return s.Update(bump, key) })
}

func BenchmarkRead(b *testing.B) {
	benchmark(b, func(s *nrbpf.Session, key []byte) (nrbpf.Answer, error) { return s.Read(peek, key) })
}
