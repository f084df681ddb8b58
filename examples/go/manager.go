// Package gaz has the metadata locks of MySQL 5.7, over libgaz_one.a.
//
// Goroutines share a Manager, which has a mutex. A Session requests locks, and sleeps while it waits for one. Its context keeps them for a statement,
// for a transaction, or until they are released.
//
// To build it, set CGO_CFLAGS=-I.../include and CGO_LDFLAGS=-L.../lib to where the library is.
package gaz

// #cgo LDFLAGS: -lgaz_one -lgaz_malloc
// #include "gaz_one.h"
import "C"

import "sync"

// A Manager has the locks of its sessions. Open makes one.
type Manager struct {
	mutex   sync.Mutex              // held during each call of the library
	space   *C.struct_gaz_one_space // apart: what C gets may not lie beside pointers of Go
	turns   []chan struct{}         // a session's wait is settled: a condition variable that can be awaited beside a context
	taken   []bool                  // by session
	settled []C.uint16_t            // room for a list
}

// Open makes a manager of 1 to 256 places, for as many keys in use at a time, and 1 to 1024 sessions.
func Open(places, sessions uint16) (*Manager, error) {
	m := &Manager{
		space:   new(C.struct_gaz_one_space),
		turns:   make([]chan struct{}, sessions),
		taken:   make([]bool, sessions),
		settled: make([]C.uint16_t, int(sessions)+1),
	}
	for at := range m.turns {
		m.turns[at] = make(chan struct{}, 1)
	}
	if err := told(C.gaz_one_open(m.space, C.uint16_t(places), C.uint16_t(sessions))); err != nil {
		return nil, err
	}
	return m, nil
}

// Close frees the manager, with all that its sessions have. Their calls return Closed then, also those that wait.
func (m *Manager) Close() error {
	m.mutex.Lock()
	defer m.mutex.Unlock()
	code := C.gaz_one_close(m.space)
	for _, turn := range m.turns {
		signal(turn)
	}
	return told(code)
}

// Session begins a session, with a context. It returns NoSession if all are taken.
func (m *Manager) Session() (*Session, error) {
	m.mutex.Lock()
	defer m.mutex.Unlock()
	for at, isTaken := range m.taken {
		if isTaken {
			continue
		}
		who := C.uint16_t(at + 1)
		if err := told(C.gaz_one_context_begin(m.space, who)); err != nil {
			return nil, err
		}
		m.taken[at] = true
		return &Session{manager: m, who: who}, nil
	}
	return nil, NoSession
}

// wake wakes the sessions whose waits are settled. The mutex is held.
func (m *Manager) wake() {
	var count C.size_t
	C.gaz_one_settled(m.space, &m.settled[0], C.size_t(len(m.turns)), &count)
	for _, who := range m.settled[:count] {
		signal(m.turns[who-1])
	}
}

// signal leaves a word for a session that sleeps, or is about to.
func signal(turn chan struct{}) {
	select {
	case turn <- struct{}{}:
	default:
	}
}
