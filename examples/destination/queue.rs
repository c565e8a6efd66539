//! What queue.c does, from Rust: it prints the same.
use destination::{Ack, AckType, Consumer, Destination, Done, Entry, Event, Id, Kind, Refusal};

fn show(what: &str, called: Result<Done, Refusal>) -> u64 {
    let done = match called {
        Ok(done) => done,
        Err(refusal) => {
            println!("{what}: refused with {}", refusal.number());
            return 0;
        }
    };
    println!("{what}: answer {}", done.answer);
    for event in done.events() {
        match event {
            Event::DeadLetter { sequence, redelivery, cause } => {
                let whose = if cause { "the client's" } else { "default" };
                println!("    dead letter {sequence}, redelivery {redelivery}, cause {whose}");
            }
            Event::Message { to, sequence, redelivery } => {
                println!("    message {sequence}, redelivery {redelivery}, to {} {} {}", to.connection, to.session, to.value);
            }
            Event::Null { to } => println!("    null to {} {} {}", to.connection, to.session, to.value),
        }
    }
    done.answer
}

fn enqueue(queue: &mut Destination, sequence: u64, expiration: i64, clock: u64) {
    let entry = Entry { sequence, expiration, persistent: true, producer: 7, size: 100 * sequence as u32, ..Entry::default() };
    show(&format!("enqueue {sequence}"), queue.enqueue(entry, clock));
}

fn join(queue: &mut Destination, id: Id, prefetch: i32, clock: u64) {
    let consumer = Consumer { id, prefetch, selector: None, no_local: false, browser: false };
    show("join", queue.join(consumer, clock));
}

fn ack(queue: &mut Destination, id: Id, kind: AckType, last: i64, cause: bool, clock: u64) {
    let ack = Ack { kind, transacted: false, first: None, last: Some(last), cause };
    show("ack", queue.ack(id, ack, clock));
}

fn show_waiting(queue: &Destination) {
    let (total, lines) = queue.page(0, 10).expect("the state is sound");
    print!("waiting {total}:");
    for line in lines {
        print!(" {} (expiration {}, redelivery {})", line.sequence, line.expiration, line.redelivery);
    }
    println!("\nbytes held {}", queue.bytes_held().expect("the state is sound"));
}

fn main() {
    let pusher = Id { connection: 9, session: 1, value: 1 };
    let puller = Id { connection: 9, session: 1, value: -2 };
    let mut queue = Destination::new();

    show("enqueue before open", queue.enqueue(Entry { sequence: 5, ..Entry::default() }, 0));
    show("open", queue.open(Kind::Queue, 0, 100, 0, 0, 0));

    enqueue(&mut queue, 5, 0, 10);
    enqueue(&mut queue, 3, 20, 10); // goes first, but has expired when a consumer comes
    show_waiting(&queue);
    join(&mut queue, pusher, 1, 30);
    ack(&mut queue, pusher, AckType::Standard, 5, false, 31);

    enqueue(&mut queue, 8, 0, 40);
    enqueue(&mut queue, 9, 0, 40);
    enqueue(&mut queue, 9, 0, 40);
    ack(&mut queue, pusher, AckType::Poison, 8, true, 41); // makes room for 9
    show("leave", queue.leave(pusher, None, 50));
    show_waiting(&queue);

    join(&mut queue, puller, 0, 60);
    show("pull", queue.pull(puller, 5, 60));
    ack(&mut queue, puller, AckType::Individual, 9, false, 61);
    let generation = show("pull", queue.pull(puller, 5, 62));
    show("timeout", queue.timeout(puller, generation));
    show("sweep with a maximum of 513", queue.sweep(70, 513));

    show_waiting(&queue);
    let c = queue.counters().expect("the state is sound");
    println!(
        "enqueued {}, dequeued {}, expired {}, discarded {}, dispatched {}",
        c.enqueued, c.dequeued, c.expired, c.discarded, c.dispatched
    );
}
