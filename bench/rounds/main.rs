// rounds PORT CLIENTS EDITS [threads]: so many clients of a canvasd at once, each on a connection of its own, all of them on one thread,
// as those of redis-benchmark are; or, with `threads`, each on a thread of its own. Each joins, makes a page, sends so many edits, and
// waits for the answer to each before it sends the next. Prints how many edits were answered a second; and, for one client, how many
// asks without news.
use std::env;
use std::io::{Read, Write};
use std::net::TcpStream;
use std::os::fd::AsRawFd;
use std::sync::{Arc, Barrier};
use std::thread;
use std::time::Instant;

// What poll(2) is asked of a descriptor.
#[repr(C)]
struct Polled {
    fd: i32,
    events: i16,
    revents: i16,
}

// There is something to read.
const POLLIN: i16 = 1;

extern "C" {
    fn poll(polled: *mut Polled, count: u64, milliseconds: i32) -> i32;
}

const HANDSHAKE: &[u8] = b"GET / HTTP/1.1\r\nHost: 127.0.0.1\r\nConnection: Upgrade\r\nUpgrade: websocket\r\nSec-WebSocket-Version: 13\r\nSec-WebSocket-Key: dGhlIHNhbXBsZSBub25jZQ==\r\n\r\n";

struct Socket {
    stream: TcpStream,
    input: Vec<u8>,
}

impl Socket {
    fn connect(port: u16) -> Socket {
        let mut stream = TcpStream::connect(("127.0.0.1", port)).expect("a server");
        stream.set_nodelay(true).expect("no delay");
        stream.write_all(HANDSHAKE).expect("the handshake leaves");
        let mut socket = Socket { stream, input: Vec::new() };
        while !socket.input.windows(4).any(|w| w == b"\r\n\r\n") {
            socket.fill();
        }
        let head = socket.input.windows(4).position(|w| w == b"\r\n\r\n").expect("a head") + 4;
        socket.input.drain(..head);
        socket
    }

    fn fill(&mut self) {
        let mut chunk = [0; 4096];
        let n = self.stream.read(&mut chunk).expect("an answer");
        assert!(n > 0, "the server ended the connection");
        self.input.extend_from_slice(&chunk[..n]);
    }

    // One binary frame, with a mask of zeros.
    fn send(&mut self, text: &str) {
        let mut frame = vec![0x82];
        if text.len() < 126 {
            frame.push(0x80 | text.len() as u8);
        } else {
            frame.push(0x80 | 126);
            frame.extend_from_slice(&(text.len() as u16).to_be_bytes());
        }
        frame.extend_from_slice(&[0; 4]);
        frame.extend_from_slice(text.as_bytes());
        self.stream.write_all(&frame).expect("a frame leaves");
    }

    // The next message, if all of it has come.
    fn take(&mut self) -> Option<Vec<u8>> {
        if self.input.len() < 2 {
            return None;
        }
        let (head, len) = match self.input[1] {
            126 if self.input.len() >= 4 => (4, u16::from_be_bytes([self.input[2], self.input[3]]) as usize),
            126 => return None,
            n => (2, n as usize),
        };
        if self.input.len() < head + len {
            return None;
        }
        let text = self.input[head..head + len].to_vec();
        self.input.drain(..head + len);
        Some(text)
    }

    fn receive(&mut self) -> Vec<u8> {
        loop {
            if let Some(text) = self.take() {
                return text;
            }
            self.fill();
        }
    }

    fn round(&mut self, text: &str, wanted: &[u8]) {
        self.send(text);
        let answer = self.receive();
        assert_eq!(answer, wanted, "to {text} came {}", String::from_utf8_lossy(&answer));
    }
}

// Asks as often as there were edits for what came after the last version, where nobody else has joined an empty server.
fn asks(socket: &mut Socket, id: u32, edits: u64) {
    let began = Instant::now();
    let ask = format!("[\"ask\",{id},{}]", edits + 2);
    for _ in 0..edits {
        socket.round(&ask, b"[\"idle\"]");
    }
    let seconds = began.elapsed().as_secs_f64();
    println!("asks without news: {:.0} a second", edits as f64 / seconds);
}

// A client that has joined and made its page.
struct Client {
    socket: Socket,
    id: u32,
    sent: u64,
}

impl Client {
    fn join(port: u16) -> Client {
        let mut socket = Socket::connect(port);
        socket.send("[\"join\",2]");
        let welcome = String::from_utf8(socket.receive()).expect("a text");
        let id: u32 = welcome["[\"welcome\",".len()..welcome.len() - 1].parse().expect("an id");
        socket.round(&format!("[\"edit\",{id},1,[\"create\",[{id},1],\"page\",[[0,0],\"{id:06}\"]]]"), b"[\"idle\"]");
        Client { socket, id, sent: 0 }
    }

    // Sends the next edit.
    fn send(&mut self) {
        let (id, k) = (self.id, self.sent);
        self.socket.send(&format!("[\"edit\",{id},{},[\"set\",[{id},1],\"n\",{k}]]", k + 2));
        self.sent += 1;
    }

    // Checks the answer to the last edit.
    fn check(&self, answer: &[u8]) {
        assert_eq!(answer, b"[\"idle\"]", "to edit {} came {}", self.sent, String::from_utf8_lossy(answer));
    }
}

// Each client on a thread of its own.
fn on_threads(clients: Vec<Client>, edits: u64) -> (Vec<Client>, f64) {
    let start = Arc::new(Barrier::new(clients.len() + 1));
    let mut threads = Vec::new();
    for mut client in clients {
        let start = Arc::clone(&start);
        threads.push(thread::spawn(move || {
            start.wait();
            for _ in 0..edits {
                client.send();
                let answer = client.socket.receive();
                client.check(&answer);
            }
            start.wait();
            client
        }));
    }
    start.wait();
    let began = Instant::now();
    start.wait();
    let seconds = began.elapsed().as_secs_f64();
    (threads.into_iter().map(|thread| thread.join().expect("a client that ends")).collect(), seconds)
}

// Waits until some of these have something to read, and tells which.
fn readable(polled: &mut [Polled]) -> Vec<usize> {
    let found = unsafe { poll(polled.as_mut_ptr(), polled.len() as u64, -1) };
    assert!(found > 0, "poll failed");
    (0..polled.len()).filter(|&at| polled[at].revents != 0).collect()
}

// All clients on this thread.
fn on_one_thread(mut clients: Vec<Client>, edits: u64) -> (Vec<Client>, f64) {
    let mut polled: Vec<Polled> =
        clients.iter().map(|client| Polled { fd: client.socket.stream.as_raw_fd(), events: POLLIN, revents: 0 }).collect();
    let began = Instant::now();
    clients.iter_mut().for_each(Client::send);
    let mut left = clients.len() as u64 * edits;
    while left > 0 {
        for at in readable(&mut polled) {
            let client = &mut clients[at];
            client.socket.fill();
            if let Some(answer) = client.socket.take() {
                client.check(&answer);
                left -= 1;
                if client.sent < edits {
                    client.send();
                }
            }
        }
    }
    (clients, began.elapsed().as_secs_f64())
}

fn main() {
    let words: Vec<String> = env::args().skip(1).collect();
    let number = |at: usize| -> u64 { words[at].parse().expect("a number") };
    let (port, count, edits) = (number(0) as u16, number(1), number(2));
    let clients = (0..count).map(|_| Client::join(port)).collect();
    let each_has_its_own = words.get(3).is_some_and(|word| word == "threads");
    let (mut clients, seconds) = if each_has_its_own { on_threads(clients, edits) } else { on_one_thread(clients, edits) };
    println!("{count} clients, {} edits: {:.0} a second", count * edits, (count * edits) as f64 / seconds);
    if let [client] = clients.as_mut_slice() {
        asks(&mut client.socket, client.id, edits);
    }
}
