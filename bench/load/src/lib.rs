//! The load of SPEED-load.md. An engine is a cache under test; the driver is the same for all.

use std::io::{self, Read};

#[derive(Debug, Clone, Copy)]
pub struct Add {
    pub instance: u64,
    pub writer: [u8; 16],
    pub sequence: u64,
    pub time: u64,
    pub kind: u8,
    pub handle: u32,
}

/// An engine without slots leaves `place` out.
#[derive(Debug, Clone, Copy, PartialEq, Eq)]
pub struct Added {
    pub key: u64,
    pub place: Option<Place>,
}

#[derive(Debug, Clone, Copy, PartialEq, Eq)]
pub struct Place {
    pub slot: u16,
    pub evicted: Option<u32>,
}

#[derive(Debug, Clone, Copy, Default, PartialEq, Eq)]
pub struct Info {
    pub handle: u32,
    pub kind: u8,
    pub sample_state: u8,
    pub view_state: u8,
    pub instance_state: u8,
    pub disposed_count: i32,
    pub no_writers_count: i32,
    pub sample_rank: i32,
    pub generation_rank: i32,
    pub absolute_generation_rank: i32,
    pub writer: [u8; 16],
    pub sequence: u64,
}

pub trait Engine: Sized {
    /// `None` for a refusal, here and below.
    fn set_up(mode: u8, keep: i32, instances: u16) -> Option<Self>;
    fn add(&mut self, a: &Add) -> Option<Added>;
    /// Answers how many infos it put to the front of `out`.
    fn read(&mut self, list: &[(u64, u64)], out: &mut [Info]) -> Option<usize>;
}

/// An order-sensitive sum that costs two additions a number.
#[derive(Debug, Default)]
struct Sum {
    a: u64,
    b: u64,
}

impl Sum {
    fn put(&mut self, v: u64) {
        self.a = self.a.wrapping_add(v);
        self.b = self.b.wrapping_add(self.a);
    }

    fn put_info(&mut self, i: &Info) {
        let rank = |r: i32| (i64::from(r) + (1 << 31)) as u64;
        self.put(i.handle.into());
        self.put(i.kind.into());
        self.put(i.sample_state.into());
        self.put(i.view_state.into());
        self.put(i.instance_state.into());
        self.put(i.disposed_count as u64);
        self.put(i.no_writers_count as u64);
        self.put(i.sample_rank as u64);
        self.put(rank(i.generation_rank));
        self.put(rank(i.absolute_generation_rank));
        self.put(i.sequence);
        self.put(i.writer[0].into());
    }
}

struct Driver<E> {
    engine: E,
    x: u64,
    n: u64,
    d: u64,
    time: u64,
    sequence: u64,
    recent: [[u64; 256]; 32],
    count: [u64; 32],
    sum: Sum,
    own: Option<Sum>,
}

fn name(i: u64) -> u64 {
    1000 * ((11 * i) % 32) + 7
}

impl<E: Engine> Driver<E> {
    fn draw(&mut self) -> u64 {
        self.x = self.x * 48271 % 2_147_483_647;
        self.x
    }

    fn add(&mut self, i: u64) -> Option<()> {
        let r = self.draw();
        self.time += r % 4;
        self.sequence += 1;
        let added = self.engine.add(&Add {
            instance: name(i),
            writer: [i as u8; 16],
            sequence: self.sequence,
            time: self.time,
            kind: if (r / 4).is_multiple_of(16) { 2 } else { 1 },
            handle: self.sequence as u32,
        })?;
        let at = i as usize;
        self.recent[at][(self.count[at] % self.d) as usize] = added.key;
        self.count[at] += 1;
        self.sum.put(added.key);
        if let Some(place) = added.place {
            let own = self.own.get_or_insert_with(Sum::default);
            own.put(place.slot.into());
            own.put(place.evicted.map_or(0, |h| u64::from(h) + 1));
        }
        Some(())
    }

    fn read(&mut self) -> Option<()> {
        let r = self.draw();
        let (m, i, j) = (1 + r % 4, (r / 4) % self.n, (r / 1024) % self.d);
        let mut list = [(0, 0); 4];
        for p in 0..m {
            let (at, place) = ((i + 5 * p) % self.n, (j + 3 * p) % self.d);
            list[p as usize] = (self.recent[at as usize][place as usize], name(at));
        }
        let mut out = [Info::default(); 4];
        let got = self.engine.read(&list[..m as usize], &mut out)?;
        for info in &out[..got] {
            self.sum.put_info(info);
        }
        Some(())
    }

    fn run(&mut self, operations: u32) -> Option<()> {
        for _ in 0..self.d {
            for i in 0..self.n {
                self.add(i)?;
            }
        }
        for k in 0..operations {
            if k % 5 == 4 {
                self.read()?;
            } else {
                let i = self.draw() % self.n;
                self.add(i)?;
            }
        }
        Some(())
    }
}

/// Reads the input, runs the load, prints the sums.
pub fn main<E: Engine>() -> io::Result<()> {
    let mut b = [0; 19];
    io::stdin().read_exact(&mut b)?;
    let number = |from: usize| u32::from_be_bytes([b[from], b[from + 1], b[from + 2], b[from + 3]]);
    let (mode, keep, instances) = (b[4], number(5) as i32, u16::from_be_bytes([b[9], b[10]]));
    let Some(engine) = E::set_up(mode, keep, instances) else {
        println!("refused");
        return Ok(());
    };
    let mut driver = Driver {
        engine,
        x: number(15).into(),
        n: instances.into(),
        d: keep.max(1) as u64,
        time: 0,
        sequence: 0,
        recent: [[0; 256]; 32],
        count: [0; 32],
        sum: Sum::default(),
        own: None,
    };
    if driver.run(number(11)).is_none() {
        println!("refused");
        return Ok(());
    }
    println!("sum {} {}", driver.sum.a, driver.sum.b);
    if let Some(own) = driver.own {
        println!("own {} {}", own.a, own.b);
    }
    Ok(())
}
