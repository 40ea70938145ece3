// Go's pgx, as bench/clients/cases.py asks it.
package main

import (
	"bufio"
	"context"
	"fmt"
	"os"
	"strings"
	"time"

	"github.com/jackc/pgx/v4"
)

func get(connection *pgx.Conn, count, ms int) error {
	until, cancel := context.WithTimeout(context.Background(), time.Duration(ms)*time.Millisecond)
	defer cancel()
	for ; count > 0; count-- {
		note, err := connection.WaitForNotification(until)
		if until.Err() != nil {
			return nil
		}
		if err != nil {
			return err
		}
		fmt.Printf("%d %s %s\n", note.PID, note.Channel, note.Payload)
	}
	return nil
}

func own(ctx context.Context, connection *pgx.Conn) error {
	for _, text := range []string{"NOTIFY c, 'never'", "NOTIFY c, 'kept'"} {
		tx, err := connection.BeginTx(ctx, pgx.TxOptions{IsoLevel: pgx.Serializable})
		if err != nil {
			return err
		}
		if _, err := tx.Exec(ctx, text); err != nil {
			return err
		}
		end := tx.Commit
		if strings.Contains(text, "never") {
			end = tx.Rollback
		}
		if err := end(ctx); err != nil {
			return err
		}
	}
	if err := connection.Ping(ctx); err != nil {
		return err
	}
	_, err := connection.Exec(ctx, "NOTIFY c, 'behind'")
	return err
}

func main() {
	ctx := context.Background()
	where := fmt.Sprintf("host=127.0.0.1 port=%s user=me dbname=%s sslmode=disable", os.Args[1], os.Args[2])
	connections := map[string]*pgx.Conn{}
	in := bufio.NewReaderSize(os.Stdin, 1<<20)
	for {
		line, err := in.ReadString('\n')
		if err != nil {
			return
		}
		parts := append(strings.SplitN(strings.TrimSuffix(line, "\n"), " ", 3), "")
		switch parts[0] {
		case "open":
			connections[parts[1]], err = pgx.Connect(ctx, where)
		case "run":
			_, err = connections[parts[1]].Exec(ctx, parts[2])
		case "own":
			err = own(ctx, connections[parts[1]])
		case "get":
			var count, ms int
			fmt.Sscan(parts[2], &count, &ms)
			err = get(connections[parts[1]], count, ms)
		case "close":
			err = connections[parts[1]].Close(ctx)
			delete(connections, parts[1])
		}
		if err != nil {
			fmt.Println("error", strings.Join(strings.Fields(err.Error()), " "))
		} else {
			fmt.Println("ok")
		}
	}
}
