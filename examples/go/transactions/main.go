// Goroutines lock two tables in either order, so that deadlocks come all the time. Then waits are over by time and by a kill, and a savepoint is used.
package main

import (
	"context"
	"errors"
	"fmt"
	"os"
	"sync"
	"time"

	"gaz"
)

const (
	workers = 4
	rounds  = 2000
	short   = 10 * time.Millisecond
)

var orders, items = gaz.Table("shop", "orders"), gaz.Table("shop", "items")

// check ends the program if there is an error.
func check(err error) {
	if err != nil {
		fmt.Fprintln(os.Stderr, err)
		os.Exit(1)
	}
}

// lockBoth locks both tables, in an order that depends on the round.
func lockBoth(session *gaz.Session, round int) error {
	first, second := orders, items
	if (int(session.Number())+round)%2 == 0 {
		first, second = second, first
	}
	if _, err := session.Acquire(context.Background(), first, gaz.SNRW, gaz.Transaction); err != nil {
		return err
	}
	_, err := session.Acquire(context.Background(), second, gaz.X, gaz.Transaction)
	return err
}

// count counts up once in each round, under both locks. A transaction that ends a deadlock is begun again.
func count(session *gaz.Session, counter *int) {
	for round := 0; round < rounds; {
		err := lockBoth(session, round)
		switch {
		case err == nil:
			*counter++ // two goroutines here at a time would lose a count
			round++
		case !errors.Is(err, gaz.Deadlock):
			check(err)
		}
		check(session.EndTransaction())
	}
}

// countTogether lets all sessions count.
func countTogether(sessions []*gaz.Session) {
	var group sync.WaitGroup
	counter := 0
	for _, session := range sessions {
		session := session
		group.Add(1)
		go func() {
			defer group.Done()
			count(session, &counter)
		}()
	}
	group.Wait()
	fmt.Println("counted:", counter)
}

// waitTooLong has a session wait for longer than its context allows.
func waitTooLong(reader, writer *gaz.Session) {
	_, err := writer.Acquire(context.Background(), orders, gaz.X, gaz.Transaction)
	check(err)
	_, hasIt, err := reader.TryAcquire(orders, gaz.SR, gaz.Transaction)
	fmt.Println("a reader has it now:", hasIt, err)
	ctx, cancel := context.WithTimeout(context.Background(), short)
	defer cancel()
	_, err = reader.Acquire(ctx, orders, gaz.SR, gaz.Transaction)
	fmt.Println("a while later:", err)
}

// begin has a session wait for a table in another goroutine, and returns once it does. What becomes of the wait comes by the channel.
func begin(manager *gaz.Manager, session *gaz.Session, table gaz.Key) (gaz.Wait, <-chan error) {
	ended := make(chan error, 1)
	go func() {
		_, err := session.Acquire(context.Background(), table, gaz.SR, gaz.Transaction)
		ended <- err
	}()
	for {
		if wait, waits := manager.WaitOf(session.Number()); waits {
			return wait, ended
		}
		time.Sleep(time.Millisecond)
	}
}

// endADeadlock has two sessions wait for each other. The victim, of equal weights the one with the greater number, makes way.
func endADeadlock(manager *gaz.Manager, first, second *gaz.Session) {
	_, err := first.Acquire(context.Background(), orders, gaz.X, gaz.Transaction)
	check(err)
	_, err = second.Acquire(context.Background(), items, gaz.X, gaz.Transaction)
	check(err)
	_, ended := begin(manager, first, items)
	_, err = second.Acquire(context.Background(), orders, gaz.SR, gaz.Transaction)
	fmt.Println("the second session is the victim:", errors.Is(err, gaz.Deadlock))
	check(second.EndTransaction())
	fmt.Println("the first one has both:", <-ended == nil)
	check(first.EndTransaction())
}

// killAWait ends the reader's wait for what the writer has, from another goroutine, and shows the locks before that.
func killAWait(manager *gaz.Manager, reader *gaz.Session) {
	wait, lost := begin(manager, reader, orders)
	locks, err := manager.Locks()
	check(err)
	for _, lock := range locks {
		fmt.Println(lock.Key, "session", lock.Session, "pending:", lock.Status == gaz.Pending)
	}
	fmt.Println("killed:", manager.Kill(wait))
	fmt.Println("the reader:", <-lost)
	fmt.Println("killed again:", manager.Kill(wait))
}

// goBack rolls back to a savepoint, and ends a statement and a transaction.
func goBack(session *gaz.Session) {
	_, err := session.Acquire(context.Background(), orders, gaz.SR, gaz.Transaction)
	check(err)
	mark, err := session.Savepoint()
	check(err)
	_, err = session.Acquire(context.Background(), items, gaz.SW, gaz.Transaction)
	check(err)
	tell(session, "after the savepoint:")
	check(session.RollbackTo(mark))
	tell(session, "rolled back:")
	ticket, err := session.Acquire(context.Background(), items, gaz.SU, gaz.Statement)
	check(err)
	check(session.Upgrade(context.Background(), ticket, gaz.X))
	check(session.Downgrade(ticket, gaz.SNW))
	check(session.SetDuration(ticket, gaz.Explicit))
	check(session.EndTransaction())
	tell(session, "at the end of the transaction:")
	check(session.ReleaseExplicit())
	tell(session, "without what is explicit:")
	fmt.Println("the savepoint:", session.RollbackTo(mark))
}

// tell says which of the tables a session may read.
func tell(session *gaz.Session, what string) {
	readsOrders, err := session.Holds(orders, gaz.SR)
	check(err)
	readsItems, err := session.Holds(items, gaz.SR)
	check(err)
	fmt.Println(what, "orders", readsOrders, "items", readsItems)
}

func main() {
	manager, err := gaz.Open(256, workers)
	check(err)
	var sessions []*gaz.Session
	for len(sessions) < workers {
		session, err := manager.Session()
		check(err)
		sessions = append(sessions, session)
	}
	_, err = manager.Session()
	fmt.Println("one more session:", err)
	countTogether(sessions)
	endADeadlock(manager, sessions[0], sessions[1])
	waitTooLong(sessions[0], sessions[1])
	killAWait(manager, sessions[0])
	check(sessions[1].EndTransaction())
	goBack(sessions[0])
	_, err = sessions[0].Acquire(context.Background(), gaz.Table("shop", ""), gaz.SR, gaz.Statement)
	fmt.Println("a table without a name:", err)
	check(sessions[0].Close())
	fmt.Println("a session that is over:", sessions[0].EndTransaction())
	check(manager.Close())
	fmt.Println("without the manager:", sessions[1].EndTransaction())
}
