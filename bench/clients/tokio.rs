// tokio-postgres, as bench/clients/cases.py asks it.
use std::collections::HashMap;
use std::future::poll_fn;
use std::io::{BufRead, Write};
use std::time::Duration;
use tokio::sync::mpsc::{unbounded_channel, UnboundedReceiver};
use tokio::time::{timeout_at, Instant};
use tokio_postgres::{AsyncMessage, Client, Error, NoTls, Notification};

struct One {
    client: Client,
    notes: UnboundedReceiver<Notification>,
}

async fn open(place: &str) -> Result<One, Error> {
    let (client, mut connection) = tokio_postgres::connect(place, NoTls).await?;
    let (sender, notes) = unbounded_channel();
    tokio::spawn(async move {
        while let Some(Ok(message)) = poll_fn(|context| connection.poll_message(context)).await {
            if let AsyncMessage::Notification(note) = message {
                let _ = sender.send(note);
            }
        }
    });
    Ok(One { client, notes })
}

async fn own(client: &mut Client) -> Result<(), Error> {
    let never = client.transaction().await?;
    never.batch_execute("NOTIFY c, 'never'").await?;
    never.rollback().await?;
    let mut kept = client.build_transaction().read_only(true).start().await?;
    let inner = kept.transaction().await?;
    inner.batch_execute("NOTIFY c, 'never'").await?;
    inner.rollback().await?;
    kept.batch_execute("NOTIFY c, 'kept'").await?;
    kept.commit().await?;
    client.simple_query("NOTIFY c, 'behind'").await?;
    Ok(())
}

async fn get(one: &mut One, count: usize, ms: u64) {
    let until = Instant::now() + Duration::from_millis(ms);
    for _ in 0..count {
        let Ok(Some(note)) = timeout_at(until, one.notes.recv()).await else { return };
        println!("{} {} {}", note.process_id(), note.channel(), note.payload());
    }
}

#[tokio::main(flavor = "current_thread")]
async fn main() {
    let words: Vec<String> = std::env::args().collect();
    let place = format!("host=127.0.0.1 port={} user=me dbname={}", words[1], words[2]);
    let mut connections = HashMap::new();
    for line in std::io::stdin().lock().lines() {
        let line = line.unwrap();
        let mut parts = line.splitn(3, ' ');
        let (word, number, rest) = (parts.next().unwrap(), parts.next().unwrap().to_string(), parts.next().unwrap_or(""));
        let mut answer = Ok(());
        match word {
            "open" => match open(&place).await {
                Ok(one) => drop(connections.insert(number, one)),
                Err(error) => answer = Err(error),
            },
            "run" => answer = connections[&number].client.batch_execute(rest).await,
            "own" => answer = own(&mut connections.get_mut(&number).unwrap().client).await,
            "get" => {
                let (count, ms) = rest.split_once(' ').unwrap();
                get(connections.get_mut(&number).unwrap(), count.parse().unwrap(), ms.parse().unwrap()).await;
            }
            _ => drop(connections.remove(&number)),
        }
        match answer {
            Ok(()) => println!("ok"),
            Err(error) => println!("error {}", error.to_string().replace('\n', " ")),
        }
        std::io::stdout().flush().unwrap();
    }
}
