//! Does one operation a number of times, by the proved crates (ours), by plain Rust (plain) or by the fastest plain
//! program (fast), and prints a sum of what came; or compares what they say of changed messages.
//!
//! driver WHO OPERATION INPUT TIMES [SIZE]
//! driver agree INPUT TIMES
//! driver mix DICTIONARY MESSAGES TIMES
//! driver heard|kept|heard-by-turns|kept-by-turns|alone|by-hand-by-turns alive|credit|tick TIMES NEIGHBOURS
//! driver heard|kept watchdogs TIMES NEIGHBOURS SIZE
//! driver neighbours add|added|opened NEIGHBOURS

mod base;
mod changes;
mod fast;
mod plain;

extern "C" {
    fn ours_walk(octets: *const u8, len: usize, times: u32) -> usize;
    fn ours_decode(octets: *const u8, len: usize, times: u32) -> usize;
    fn ours_hold(octets: *const u8, len: usize, times: u32) -> usize;
    fn ours_check(octets: *const u8, len: usize, times: u32) -> usize;
    fn ours_judge(octets: *const u8, len: usize, times: u32) -> usize;
    fn ours_rule(text: *const u8, len: usize, octets: *const u8, octets_len: usize, times: u32) -> usize;
    fn ours_rule_check(text: *const u8, len: usize, octets: *const u8, octets_len: usize, times: u32) -> usize;
    fn ours_list(text: *const u8, len: usize, octets: *const u8, octets_len: usize, located: bool, times: u32) -> usize;
    fn ours_encode(octets: *const u8, len: usize, times: u32) -> usize;
    fn ours_frame(octets: *const u8, len: usize, size: usize, times: u32) -> usize;
    #[cfg(mix)]
    fn ours_mix(text: *const u8, len: usize, octets: *const u8, octets_len: usize, times: u32) -> usize;
    #[cfg(on)]
    fn ours_on(
        first: *const u8,
        len: usize,
        octets: *const u8,
        octets_len: usize,
        submits: bool,
        ticks: u32,
        times: u32,
    ) -> usize;
    #[cfg(node)]
    fn ours_hand(first: *const u8, len: usize, octets: *const u8, octets_len: usize, size: usize, times: u32) -> usize;
    #[cfg(node)]
    fn ours_add(hosts: *const u8, len: usize) -> usize;
    #[cfg(node)]
    fn ours_node(
        hosts: *const u8,
        len: usize,
        calls: *const u8,
        calls_len: usize,
        call: usize,
        message: *const u8,
        message_len: usize,
        hears: bool,
        ticks: bool,
        turns: bool,
        times: u32,
    ) -> usize;
    #[cfg(node)]
    fn ours_node_stream(
        hosts: *const u8,
        len: usize,
        calls: *const u8,
        calls_len: usize,
        call: usize,
        octets: *const u8,
        octets_len: usize,
        size: usize,
        hears: bool,
        times: u32,
    ) -> usize;
    #[cfg(node)]
    fn ours_by_hand(
        hosts: *const u8,
        len: usize,
        calls: *const u8,
        calls_len: usize,
        call: usize,
        octets: *const u8,
        octets_len: usize,
        ticks: bool,
        times: u32,
    ) -> usize;
    #[cfg(node)]
    fn ours_alone(
        host: *const u8,
        len: usize,
        first: *const u8,
        first_len: usize,
        octets: *const u8,
        octets_len: usize,
        ticks: bool,
        times: u32,
    ) -> usize;
}

fn avp(code: u32, mandatory: bool, data: &[u8]) -> Vec<u8> {
    let mut octets = code.to_be_bytes().to_vec();
    octets.push(if mandatory { 0x40 } else { 0 });
    octets.extend_from_slice(&(8 + data.len() as u32).to_be_bytes()[1..]);
    octets.extend_from_slice(data);
    octets.resize(octets.len().next_multiple_of(4), 0);
    octets
}

fn message(command: u32, avps: &[Vec<u8>]) -> Vec<u8> {
    let body = avps.concat();
    let mut octets = (0x0100_0000u32 + 20 + body.len() as u32).to_be_bytes().to_vec();
    octets.extend_from_slice(&(0x8000_0000u32 + command).to_be_bytes());
    octets.extend_from_slice(&[0, 0, 0, 0, 0, 0, 0, 1, 0, 0, 0, 1]);
    octets.extend_from_slice(&body);
    octets
}

/// A Vendor-Specific-Application-Id of a vendor and an application.
fn application(vendor: u32, id: u32) -> Vec<u8> {
    let members = [avp(266, true, &vendor.to_be_bytes()), avp(258, true, &id.to_be_bytes())];
    avp(260, true, &members.concat())
}

/// A Capabilities-Exchange-Request of a.example with this many groups of two.
fn capabilities(groups: u32) -> Vec<u8> {
    capabilities_of(b"a.example", groups)
}

fn capabilities_of(host: &[u8], groups: u32) -> Vec<u8> {
    let mut avps = vec![
        avp(264, true, host),
        avp(296, true, b"example"),
        avp(257, true, &[0, 1, 127, 0, 0, 1]),
        avp(257, true, &[0, 2, 0, 0, 0, 0, 0, 0, 0, 0, 0, 0, 0, 0, 0, 0, 0, 1]),
        avp(266, true, &[0; 4]),
        avp(269, false, b"dmpeer"),
        avp(258, true, &4u32.to_be_bytes()),
    ];
    avps.extend((0..groups).map(|k| application(10415, 16777216 + k)));
    message(257, &avps)
}

/// A Device-Watchdog-Request with so many further AVPs that no dictionary knows.
fn watchdog(further: u32) -> Vec<u8> {
    let mut avps = vec![avp(264, true, b"a.example"), avp(296, true, b"example")];
    avps.extend((0..further).map(|k| avp(70000 + k % 10, false, &[k as u8; 52])));
    message(280, &avps)
}

/// A Credit-Control-Request, which no peer checks, with so many further AVPs.
fn credit(further: u32) -> Vec<u8> {
    let mut avps = vec![
        avp(263, true, b"a.example;1;1"),
        avp(264, true, b"a.example"),
        avp(296, true, b"example"),
        avp(283, true, b"example"),
        avp(258, true, &4u32.to_be_bytes()),
        avp(461, true, b"32251@3gpp.org"),
        avp(416, true, &1u32.to_be_bytes()),
        avp(415, true, &0u32.to_be_bytes()),
    ];
    avps.extend((0..further).map(|k| avp(70000 + k % 10, false, &[k as u8; 52])));
    message(272, &avps)
}

/// 5,000 messages of 200 octets, a megabyte.
fn stream() -> Vec<u8> {
    message(280, &[avp(70000, false, &[7; 172])]).repeat(5000)
}

/// A dictionary of a command with so many entries, each of at most 9 AVPs.
fn bounded_rule(size: usize) -> String {
    let avps: String = (0..size).map(|k| format!("@ A{k} {} Unsigned32\n", 80000 + k)).collect();
    let entries: String = (0..size).map(|k| format!(" *9 [ A{k} ]")).collect();
    format!("{avps}< Q > ::= < Diameter Header: 300, REQ >{entries}\n")
}

/// A request of that command with 60 AVPs of the first ten entries.
fn ruled() -> Vec<u8> {
    message(300, &(0..60).map(|k| avp(80000 + k % 10, true, &[0; 4])).collect::<Vec<_>>())
}

/// A dictionary of a command with so many entries, each of at most one AVP.
fn single_rule(size: usize) -> String {
    let avps: String = (0..size).map(|k| format!("@ A{k} {} Unsigned32\n", 80000 + k)).collect();
    let entries: String = (0..size).map(|k| format!(" [ A{k} ]")).collect();
    format!("{avps}< Q > ::= < Diameter Header: 300, REQ >{entries}\n")
}

/// A request of that command with one AVP of each entry.
fn filled(size: usize) -> Vec<u8> {
    message(300, &(0..size).map(|k| avp(80000 + k as u32, true, &[0; 4])).collect::<Vec<_>>())
}

/// A request of that command with two AVPs of each entry.
fn exceeded(size: usize) -> Vec<u8> {
    message(300, &(0..2 * size).map(|k| avp(80000 + (k % size) as u32, true, &[0; 4])).collect::<Vec<_>>())
}

/// A dictionary of a command with groups of 20 entries.
fn grouped_rule() -> String {
    let avps: String = (0..20).map(|k| format!("@ A{k} {} Unsigned32\n", 80000 + k)).collect();
    let entries: String = (0..20).map(|k| format!(" [ A{k} ]")).collect();
    let group = format!("< G > ::= < AVP Header: 79999 >{entries}\n");
    format!("{avps}{group}< Q > ::= < Diameter Header: 300, REQ > *[ G ]\n")
}

/// A request of that command with so many groups of five AVPs, the last of a wrong length in every tenth group.
fn grouped(size: usize) -> Vec<u8> {
    let member = |k: usize, i: usize| avp(80000 + i as u32, true, if i == 4 && k % 10 == 9 { &[0; 3] } else { &[0; 4] });
    let group = |k: usize| avp(79999, true, &(0..5).map(|i| member(k, i)).collect::<Vec<_>>().concat());
    message(300, &(0..size).map(group).collect::<Vec<_>>())
}

/// What an input's dictionary has beside the base dictionary.
fn text_of(name: &str, size: usize) -> String {
    match name {
        "ruled" => bounded_rule(size),
        "exceeded" | "filled" => single_rule(size),
        "grouped" => grouped_rule(),
        _ => String::new(),
    }
}

fn input(name: &str, size: usize) -> Vec<u8> {
    match name {
        "capabilities" => capabilities(1),
        "groups" => capabilities(18),
        "thousand" => watchdog(998),
        "alive" => watchdog(0),
        "credit" => credit(0),
        "credits" => credit(992),
        "stream" => stream(),
        "watchdogs" => watchdog(0).repeat(1000),
        "ruled" => ruled(),
        "exceeded" => exceeded(size),
        "filled" => filled(size),
        "grouped" => grouped(size),
        _ => panic!("no input {name}"),
    }
}

fn ours(operation: &str, text: &str, octets: &[u8], times: u32, size: usize) -> usize {
    let (at, len) = (octets.as_ptr(), octets.len());
    // Each takes a slice of octets as a pointer and a length, and only reads.
    unsafe {
        match operation {
            "walk" => ours_walk(at, len, times),
            "decode" => ours_decode(at, len, times),
            "hold" => ours_hold(at, len, times),
            "check" => ours_check(at, len, times),
            "judge" => ours_judge(at, len, times),
            "rule" => ours_rule(text.as_ptr(), text.len(), at, len, times),
            "rule_check" => ours_rule_check(text.as_ptr(), text.len(), at, len, times),
            "faults" | "located" => ours_list(text.as_ptr(), text.len(), at, len, operation == "located", times),
            "encode" => ours_encode(at, len, times),
            "frame" => ours_frame(at, len, size, times),
            #[cfg(on)]
            "on" | "submit" | "tick" | "ticks" => {
                let first = capabilities(1);
                let ticks = match operation {
                    "tick" => 1,
                    "ticks" => 2,
                    _ => 0,
                };
                ours_on(first.as_ptr(), first.len(), at, len, operation == "submit", ticks, times)
            }
            #[cfg(node)]
            "hand" => {
                let first = capabilities(1);
                ours_hand(first.as_ptr(), first.len(), at, len, size, times)
            }
            _ => panic!("no operation {operation}"),
        }
    }
}

/// Judges the messages of a file, one behind the other, by the dictionary of another file.
#[cfg(mix)]
fn mix(dictionary: &str, messages: &str, times: u32) -> usize {
    let (text, octets) = (std::fs::read(dictionary).unwrap(), std::fs::read(messages).unwrap());
    // It takes two slices of octets, and only reads.
    unsafe { ours_mix(text.as_ptr(), text.len(), octets.as_ptr(), octets.len(), times) }
}

/// The host of a neighbour, of 15 octets.
#[cfg(node)]
fn host_of(number: usize) -> Vec<u8> {
    format!("n{number:06}.example").into_bytes()
}

/// The hosts of so many neighbours, and how each of them opens.
#[cfg(node)]
fn neighbourhood(size: usize) -> (Vec<u8>, Vec<u8>) {
    let calls = (0..size).flat_map(|number| capabilities_of(&host_of(number), 1)).collect();
    ((0..size).flat_map(host_of).collect(), calls)
}

/// Adds these neighbours to a node.
#[cfg(node)]
fn add(hosts: &[u8]) -> usize {
    // It takes a slice of octets as a pointer and a length, and only reads.
    unsafe { ours_add(hosts.as_ptr(), hosts.len()) }
}

/// A node of these neighbours, which are open, is told a message so many times: where it lies or kept first, behind a
/// Tick or not, to the one in the middle or to each in turn.
#[cfg(node)]
fn node(hosts: &[u8], calls: &[u8], message: &[u8], who: &str, ticks: bool, times: u32) -> usize {
    let call = calls.len() / (hosts.len() / 15);
    let (hears, turns) = (who.starts_with("heard"), who.ends_with("turns"));
    // As above.
    unsafe {
        let (at, len, calls, calls_len) = (hosts.as_ptr(), hosts.len(), calls.as_ptr(), calls.len());
        ours_node(at, len, calls, calls_len, call, message.as_ptr(), message.len(), hears, ticks, turns, times)
    }
}

/// A stream comes to it so many times, in pieces of this size.
#[cfg(node)]
fn node_stream(hosts: &[u8], calls: &[u8], octets: &[u8], size: usize, hears: bool, times: u32) -> usize {
    let call = calls.len() / (hosts.len() / 15);
    // As above.
    unsafe {
        let (at, len, calls, calls_len) = (hosts.as_ptr(), hosts.len(), calls.as_ptr(), calls.len());
        ours_node_stream(at, len, calls, calls_len, call, octets.as_ptr(), octets.len(), size, hears, times)
    }
}

/// A peer alone is told the same.
#[cfg(node)]
fn alone(octets: &[u8], ticks: bool, times: u32, size: usize) -> usize {
    let host = host_of(size / 2);
    let first = capabilities_of(&host, 1);
    let (at, len) = (octets.as_ptr(), octets.len());
    // As above.
    unsafe { ours_alone(host.as_ptr(), host.len(), first.as_ptr(), first.len(), at, len, ticks, times) }
}

/// Peers by hand are told the same, each in turn.
#[cfg(node)]
fn by_hand(hosts: &[u8], calls: &[u8], octets: &[u8], ticks: bool, times: u32) -> usize {
    let call = calls.len() / (hosts.len() / 15);
    let (at, len, calls, calls_len) = (hosts.as_ptr(), hosts.len(), calls.as_ptr(), calls.len());
    // As above.
    unsafe { ours_by_hand(at, len, calls, calls_len, call, octets.as_ptr(), octets.len(), ticks, times) }
}

/// A number of kilobytes that the system says of this program.
#[cfg(node)]
fn kilobytes(name: &str) -> usize {
    let status = std::fs::read_to_string("/proc/self/status").unwrap();
    let line = status.lines().find_map(|line| line.strip_prefix(name)).unwrap();
    line.trim_matches(|letter: char| !letter.is_ascii_digit()).parse().unwrap()
}

/// How many octets more this program takes at most for what it is told to do.
#[cfg(node)]
fn memory(operation: impl FnOnce() -> usize) -> usize {
    let before = kilobytes("VmRSS:");
    assert!(operation() > 0);
    (kilobytes("VmHWM:") - before) * 1024
}

/// What comes of a node of many neighbours, or of a peer alone, or of many by hand.
#[cfg(node)]
fn of_node(who: &str, event: &str, times: u32, neighbours: usize, size: usize) -> usize {
    let (octets, ticks) = (input(if event == "tick" { "credit" } else { event }, 0), event == "tick");
    let (hosts, calls) = neighbourhood(neighbours);
    match (who, event) {
        ("alone", _) => alone(&octets, ticks, times, neighbours),
        ("by-hand-by-turns", _) => by_hand(&hosts, &calls, &octets, ticks, times),
        (_, "watchdogs") => node_stream(&hosts, &calls, &octets, size, who == "heard", times),
        _ => node(&hosts, &calls, &octets, who, ticks, times),
    }
}

/// What it takes to add so many neighbours, or to have them open.
#[cfg(node)]
fn of_neighbours(what: &str, neighbours: usize) -> usize {
    let (hosts, calls) = neighbourhood(neighbours);
    match what {
        "add" => add(&hosts),
        "added" => memory(|| add(&hosts)),
        _ => memory(|| node(&hosts, &calls, &input("credit", 0), "heard", false, 1)),
    }
}

/// Compares the three programs on so many changed messages, and prints how many were good, bad and none.
fn agree(octets: &[u8], times: u64) {
    let mut kinds = [0; 3];
    for seed in 1..=times {
        let changed = changes::changed(octets, seed);
        if changed.len() < 20 {
            continue;
        }
        for operation in ["walk", "decode", "hold", "judge", "check", "encode"] {
            let plain = plain::run(operation, &changed, 1, 0);
            let fast = if matches!(operation, "check" | "hold") { plain } else { fast::run(operation, &changed, 1) };
            let ours = ours(operation, "", &changed, 1, 0);
            if (ours, fast) != (plain, plain) {
                eprintln!("{operation}: {ours} of ours, {plain} of plain, {fast} of fast: {changed:02x?}");
                std::process::exit(1);
            }
            if operation == "judge" {
                kinds[plain.min(2)] += 1;
            }
        }
    }
    println!("{} {} {}", kinds[1], kinds[2], kinds[0]);
}

fn main() {
    let words: Vec<String> = std::env::args().skip(1).collect();
    if words[0] == "agree" {
        return agree(&input(&words[1], 0), words[2].parse().unwrap());
    }
    #[cfg(mix)]
    if words[0] == "mix" {
        return println!("{}", mix(&words[1], &words[2], words[3].parse().unwrap()));
    }
    #[cfg(node)]
    if words[0] == "neighbours" {
        return println!("{}", of_neighbours(&words[1], words[2].parse().unwrap()));
    }
    #[cfg(node)]
    if words[0] != "ours" {
        let [times, neighbours]: [usize; 2] = [2, 3].map(|at: usize| words[at].parse().unwrap());
        let size = words.get(4).map_or(0, |word| word.parse().unwrap());
        return println!("{}", of_node(&words[0], &words[1], times as u32, neighbours, size));
    }
    let times = words[3].parse().unwrap();
    let size = words.get(4).map_or(1460, |word| word.parse().unwrap());
    let (text, octets) = (text_of(&words[2], size), input(&words[2], size));
    let sum = match words[0].as_str() {
        "ours" => ours(&words[1], &text, &octets, times, size),
        "fast" => fast::run(&words[1], &octets, times),
        _ => plain::run(&words[1], &octets, times, size),
    };
    println!("{sum}");
}
