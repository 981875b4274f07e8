use ttcrx_host::ttcrx;

fn main() {
    assert_eq!(ttcrx::version(), ttcrx::VERSION);

    // A trigger on an idle clock: the bus shows the bunch number, and the event counter goes up.
    let answer = ttcrx::clock(ttcrx::fresh(5, 5).receiver, 1, 1);
    assert_eq!(answer.outputs.strobe, ttcrx::STROBE_BUNCH);
    assert_eq!(ttcrx::read(answer.receiver, 26).byte, 1);

    // A stored line: the broadcast of 02 with a wrong check bit. It clears the event counter.
    let line = ttcrx::read_line(b"0095");
    assert_eq!(line.refusal, ttcrx::ACCEPTED);
    let answer = ttcrx::receive(answer.receiver, line.kind, line.number);
    assert_eq!(answer.outputs.verdict, ttcrx::VERDICT_BROADCAST);
    assert_eq!((answer.outputs.corrected, answer.outputs.word), (1, 0x02));
    assert_eq!(ttcrx::read(answer.receiver, 26).byte, 0);

    // Three clocks in one call, the second with a trigger, on a receiver that is lent.
    let mut receiver = answer.receiver;
    let mut buffer = [0; 3 * ttcrx::RECORD_NUMBERS];
    let outcome = ttcrx::run_block(&mut receiver, &[2, 3, 2], &mut buffer);
    let records: Vec<ttcrx::Record> = ttcrx::records(&buffer, outcome.records).collect();
    assert_eq!((records.len(), records[0].place), (1, 1));
    assert_eq!(records[0].code, ttcrx::CODE_TRIGGER);
}
