package gaz

// #include "gaz_one.h"
import "C"

// The most bytes of a name.
const longestName = 255

// A Status says whether a ticket is granted, is awaited, or is that of a wait that is lost and not ended.
type Status uint8

// The statuses.
const (
	Granted       Status = C.GAZ_GRANTED
	Pending       Status = C.GAZ_PENDING
	LostAsVictim  Status = C.GAZ_LOST_AS_VICTIM
	LostByTimeout Status = C.GAZ_LOST_BY_TIMEOUT
	LostByKill    Status = C.GAZ_LOST_BY_KILL
)

// A Lock is a ticket of a key, which a session holds or waits for.
type Lock struct {
	Key      Key
	Ticket   Ticket
	Session  uint16
	Mode     Mode
	Status   Status
	Duration Duration
}

// A Wait is a wait of a session.
type Wait struct {
	Session uint16
	number  C.uint64_t
}

// WaitOf returns the wait of a session, and whether it has one.
func (m *Manager) WaitOf(session uint16) (Wait, bool) {
	m.mutex.Lock()
	defer m.mutex.Unlock()
	wait := Wait{Session: session}
	code := C.gaz_one_wait_of(m.space, C.uint16_t(session), &wait.number)
	return wait, code == C.GAZ_DONE
}

// Kill ends a wait, and returns whether it did. It is false if the wait was over or settled before: a later wait of the session isn't hit.
func (m *Manager) Kill(wait Wait) bool {
	m.mutex.Lock()
	defer m.mutex.Unlock()
	code := C.gaz_one_kill(m.space, C.uint16_t(wait.Session), wait.number)
	m.wake()
	return code == C.GAZ_DONE
}

// Locks returns the tickets of all keys, as they are at one moment: by place, and of each place first the granted ones, then the waiting ones.
func (m *Manager) Locks() ([]Lock, error) {
	m.mutex.Lock()
	defer m.mutex.Unlock()
	var places C.size_t
	if err := told(C.gaz_one_places(m.space, &places)); err != nil {
		return nil, err
	}
	var locks []Lock
	for place := C.uint16_t(1); place <= C.uint16_t(places); place++ {
		key, err := m.keyOf(place)
		if err != nil {
			return nil, err
		}
		rows, err := m.rowsOf(place)
		if err != nil {
			return nil, err
		}
		for _, row := range rows {
			locks = append(locks, Lock{key, Ticket(row.ticket), uint16(row.session), Mode(row.mode), Status(row.status), Duration(row.duration)})
		}
	}
	return locks, nil
}

// keyOf returns the key of a place. The mutex is held.
func (m *Manager) keyOf(place C.uint16_t) (Key, error) {
	var namespace C.uint8_t
	var schema, table [longestName]byte
	var schemaLength, tableLength C.size_t
	code := C.gaz_one_key_of(m.space, place, &namespace, (*C.uint8_t)(&schema[0]), longestName, &schemaLength, (*C.uint8_t)(&table[0]), longestName,
		&tableLength)
	return Key{namespace, string(schema[:schemaLength]), string(table[:tableLength])}, told(code)
}

// rowsOf returns the tickets of a place. The mutex is held.
func (m *Manager) rowsOf(place C.uint16_t) ([]C.struct_gaz_lock, error) {
	rows := make([]C.struct_gaz_lock, 16)
	for {
		var count C.size_t
		if err := told(C.gaz_one_locks(m.space, place, &rows[0], C.size_t(len(rows)), &count)); err != nil {
			return nil, err
		}
		if int(count) <= len(rows) {
			return rows[:count], nil
		}
		rows = make([]C.struct_gaz_lock, count)
	}
}
