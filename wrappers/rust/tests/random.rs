//! Random calls: each gives a value or a fault, none ends the program, and a table's sum keeps to its capacity.
use abt::*;

/// Random numbers (xorshift64*), the same each time.
struct Random(u64);

impl Random {
    fn draw(&mut self) -> u64 {
        self.0 ^= self.0 >> 12;
        self.0 ^= self.0 << 25;
        self.0 ^= self.0 >> 27;
        self.0.wrapping_mul(2685821657736338717)
    }

    fn number(&mut self) -> u64 {
        let drawn = self.draw();
        [0, 1, 2, 100, 0x5120, 0x5258, 1_000_000_000_000, 1 << 61, u64::MAX, drawn][(self.draw() % 10) as usize]
    }

    fn request(&mut self) -> Request {
        let vci = [100, 101, self.number() as u16][(self.draw() % 3) as usize];
        let vpi = if self.draw() % 8 == 0 { self.number() as u16 } else { 1 };
        Request { vpi, vci, seq: self.number() as u32, floor: Code(0), ask: Code(self.number() as u16) }
    }
}

#[test]
fn ports_and_cells() {
    let mut random = Random(1);
    for _ in 0..30 {
        let (mut table, mut port, mut connection) =
            (Table::new(Units(512_000)).unwrap(), Port::new(Units(512_000)).unwrap(), Connection::new(1, 100).unwrap());
        for _ in 0..500 {
            let request = random.request();
            let answer = request.answered(random.draw() % 2 == 0);
            let mut cell = Rm::Request(request).write().unwrap_or([0; CELL_LENGTH]);
            cell[(random.draw() % 52) as usize] ^= (random.draw() % 2) as u8;
            let (vci, tau) = (random.number() as u16, Picoseconds(random.number()));
            let _ = (table.add(1, random.number() as u16), table.request(&request), table.answer(&answer), table.cell(&cell));
            let _ = (table.add_ingress(1, vci, tau), table.remove(1, random.number() as u16), request.turned());
            let cells = [tau, Picoseconds(random.number())].map(|at| Arrival { at, vpi: 1, vci });
            let _ = (table.arrive_burst(&cells, &mut [None; 2]), table.arrive(1, vci, tau), table.reservation(1, vci));
            assert!(table.count().unwrap() <= 1024);
            let _ = (port.request(&mut connection, &request), port.answer(&mut connection, &answer), Rm::read(&cell));
            let _ = table.held(1, random.number() as u16);
            assert!(table.total().unwrap() <= Units(512_000) && port.total().unwrap() <= Units(512_000));
        }
    }
}

#[test]
fn policers_and_shapers() {
    let mut random = Random(2);
    for _ in 0..300 {
        let (Ok(mut gcra), Ok(mut bucket)) = (Gcra::new(Picoseconds(5)), Bucket::new(Picoseconds(5))) else { panic!("5 is a tolerance") };
        let (mut policer, mut shaper) = (Policer::new(Picoseconds(5)).unwrap(), Shaper::new(Picoseconds(0)).unwrap());
        for _ in 0..20 {
            let (at, spacing, code) = (Picoseconds(random.number()), Picoseconds(random.number()), Code(random.number() as u16));
            assert_eq!(gcra.check(at, spacing), bucket.check(at, spacing));
            let (mut single, moments, mut verdicts) = (policer.clone(), [at.0, random.number(), random.number()], [0; 3]);
            let stopped = policer.arrive_burst(code, &moments, &mut verdicts);
            for (i, moment) in moments.into_iter().enumerate() {
                match single.arrive(Picoseconds(moment), code) {
                    Ok(verdict) => assert_eq!(Verdict::of_number(verdicts[i]), Some(verdict)),
                    Err(fault) => {
                        assert_eq!(stopped, Err(Stopped { judged: i, fault }));
                        break;
                    }
                }
            }
            let _ = (policer.arrive(at, code), shaper.emit(at, code), shaper.next(), Code::at_least(Units(at.0)));
        }
    }
}

#[test]
fn a_source_over_writes_that_fail() {
    let mut random = Random(3);
    let (mut record, mut newest) = (vec![0; 4], 0);
    for _ in 0..300 {
        let mut source = Source::<Down>::new(1, 100).unwrap().start(&record, Picoseconds(0)).unwrap();
        for _ in 0..random.draw() % 5 {
            let written = random.draw() % 3 != 0;
            let (asking, request) = match source.ask(Code(random.number() as u16)).unwrap() {
                Ask::Out(asking, request) => (asking, request),
                Ask::Write(writing) if written => {
                    record = writing.record().to_vec();
                    writing.wrote(Became::Written).unwrap()
                }
                Ask::Write(writing) => {
                    let refused = writing.wrote(Became::FailedBefore).unwrap_err();
                    assert_eq!(refused.fault, Fault::NotKept);
                    source = refused.source;
                    continue;
                }
            };
            assert!(request.seq > newest, "numbers rise, also over restarts");
            newest = request.seq;
            source = match asking.answer(&request.answered(random.draw() % 2 == 0)).unwrap() {
                Heard::Raised(source) | Heard::Refused(source) => source,
                Heard::Ignored(_) => panic!("it is the answer to the newest request"),
            };
            let _ = source.emit(Picoseconds(random.number()));
        }
    }
}
