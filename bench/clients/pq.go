// Go's lib/pq, as bench/clients/cases.py asks it. Before the first connection its Listener gets what database/sql sends.
package main

import (
	"bufio"
	"database/sql"
	"fmt"
	"os"
	"strings"
	"time"

	"github.com/lib/pq"
)

type one struct {
	notes    chan *pq.Notification
	listener *pq.ListenerConn
}

func open(where string) (*one, error) {
	notes := make(chan *pq.Notification, 4096)
	listener, err := pq.NewListenerConn(where, notes)
	return &one{notes, listener}, err
}

func (o *one) run(text string) error {
	_, err := o.listener.ExecSimpleQuery(text)
	return err
}

func (o *one) get(count, ms int) {
	after := time.After(time.Duration(ms) * time.Millisecond)
	for ; count > 0; count-- {
		select {
		case note := <-o.notes:
			if note == nil {
				return
			}
			fmt.Printf("%d %s %s\n", note.BePid, note.Channel, note.Extra)
		case <-after:
			return
		}
	}
}

// What most programs use: a Listener, and database/sql to send.
func ready(where string) error {
	listener := pq.NewListener(where, time.Second, time.Minute, nil)
	defer listener.Close()
	db, err := sql.Open("postgres", where)
	if err != nil {
		return err
	}
	defer db.Close()
	if err := listener.Listen("ready Made"); err != nil {
		return err
	}
	if _, err := db.Exec(`NOTIFY "ready Made", 'x'`); err != nil {
		return err
	}
	select {
	case note := <-listener.Notify:
		if note == nil || note.Channel != "ready Made" || note.Extra != "x" {
			return fmt.Errorf("got %v", note)
		}
	case <-time.After(10 * time.Second):
		return fmt.Errorf("the Listener got nothing")
	}
	return listener.UnlistenAll()
}

// By database/sql, which has a pool.
func own(where string) error {
	db, err := sql.Open("postgres", where)
	if err != nil {
		return err
	}
	defer db.Close()
	for _, text := range []string{"NOTIFY c, 'never'", "NOTIFY c, 'kept'"} {
		tx, err := db.Begin()
		if err != nil {
			return err
		}
		if _, err := tx.Exec(text); err != nil {
			return err
		}
		end := tx.Commit
		if strings.Contains(text, "never") {
			end = tx.Rollback
		}
		if err := end(); err != nil {
			return err
		}
	}
	if err := db.Ping(); err != nil {
		return err
	}
	_, err = db.Exec("NOTIFY c, 'behind'")
	return err
}

func main() {
	where := fmt.Sprintf("host=127.0.0.1 port=%s user=me dbname=%s sslmode=disable", os.Args[1], os.Args[2])
	connections := map[string]*one{}
	in := bufio.NewReaderSize(os.Stdin, 1<<20)
	for {
		line, err := in.ReadString('\n')
		if err != nil {
			return
		}
		parts := append(strings.SplitN(strings.TrimSuffix(line, "\n"), " ", 3), "")
		switch parts[0] {
		case "open":
			if len(connections) == 0 {
				err = ready(where)
			}
			if err == nil {
				connections[parts[1]], err = open(where)
			}
		case "run":
			err = connections[parts[1]].run(parts[2])
		case "own":
			err = own(where)
		case "get":
			var count, ms int
			fmt.Sscan(parts[2], &count, &ms)
			connections[parts[1]].get(count, ms)
		case "close":
			err = connections[parts[1]].listener.Close()
			delete(connections, parts[1])
		}
		if err != nil {
			fmt.Println("error", strings.Join(strings.Fields(err.Error()), " "))
		} else {
			fmt.Println("ok")
		}
	}
}
