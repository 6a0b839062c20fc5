//! A line server on tokio: one thread, a task for each connection, and each line answered in capitals.
//!
//!     lines_tokio PORT CONNECTIONS [batch] [nodelay]
//!
//! It serves whoever dials 127.0.0.1 at PORT until CONNECTIONS connections have ended. Each line is written as soon as it is answered; with the
//! word `batch`, answers are kept for as long as the reader's buffer holds another whole line, and are then written together. With the word
//! `nodelay`, the sockets are told not to hold back small segments (TCP_NODELAY).
//!
//! `lines` does not tell whether the last line had a newline, or whether a line ended in "\r\n": every answer here ends in "\n".

use std::env;
use std::io;
use tokio::io::{AsyncBufReadExt, AsyncWriteExt, BufReader, BufWriter};
use tokio::net::{TcpListener, TcpStream};
use tokio::task::JoinSet;

// Answers each line at once.
async fn talk(mut stream: TcpStream) -> io::Result<()> {
    let (read, mut write) = stream.split();
    let mut lines = BufReader::new(read).lines();
    while let Some(mut line) = lines.next_line().await? {
        line.make_ascii_uppercase();
        line.push('\n');
        write.write_all(line.as_bytes()).await?;
    }
    Ok(())
}

// Answers together the lines that were read together.
async fn talk_in_batches(mut stream: TcpStream) -> io::Result<()> {
    let (read, write) = stream.split();
    let mut lines = BufReader::new(read).lines();
    let mut write = BufWriter::new(write);
    while let Some(mut line) = lines.next_line().await? {
        line.make_ascii_uppercase();
        line.push('\n');
        write.write_all(line.as_bytes()).await?;
        if memchr::memchr(b'\n', lines.get_ref().buffer()).is_none() {
            write.flush().await?;
        }
    }
    Ok(())
}

async fn serve(port: u16, connections: u64, batch: bool, nodelay: bool) -> io::Result<()> {
    let listener = TcpListener::bind(("127.0.0.1", port)).await?;
    let mut open = JoinSet::new();
    let mut ended = 0;
    while ended < connections {
        tokio::select! {
            accepted = listener.accept() => {
                let (stream, _) = accepted?;
                stream.set_nodelay(nodelay)?;
                if batch {
                    open.spawn(talk_in_batches(stream));
                } else {
                    open.spawn(talk(stream));
                }
            }
            // A connection that failed has ended, too.
            Some(_) = open.join_next() => ended += 1,
        }
    }
    Ok(())
}

fn main() -> io::Result<()> {
    let words: Vec<String> = env::args().skip(1).collect();
    let [port, connections, options @ ..] = words.as_slice() else {
        eprintln!("usage: lines_tokio PORT CONNECTIONS [batch] [nodelay]");
        std::process::exit(2);
    };
    let (port, connections) = (port.parse().unwrap(), connections.parse().unwrap());
    let has = |word: &str| options.iter().any(|option| option == word);
    tokio::runtime::Builder::new_current_thread()
        .enable_io()
        .build()?
        .block_on(serve(port, connections, has("batch"), has("nodelay")))
}
