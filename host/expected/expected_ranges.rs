//! A record with each of its fields in turn out of range, and at the end of its range.

use crate::expected_readers::start_answer;
use crate::reference_record::{
    Alteration, ChangeStage, Place, PutStage, Reader, Record, RemovalStage, Search, Station, Writer,
};
use crate::reference_table::start_walk;

/// The records, in the order of the program's table.
#[derive(Default)]
struct Table(Vec<Record>);

pub fn run() {
    let mut table = Table::default();
    table.sizes();
    table.readers();
    table.puts();
    table.changes();
    table.removals();
    table.stations();
    for (row, panel) in table.0.iter_mut().enumerate() {
        // What the start of reader 15's walk is answered, with 8 slots.
        let answer = start_answer(start_walk(panel, &[0; 8], 15));
        println!("range {row}:{answer}");
    }
}

impl Table {
    fn sizes(&mut self) {
        for m in [8, 0, 7, 9, u32::MAX] {
            self.0.push(Record::fresh(m, 4));
        }
        for k in [0, 1, 64, 65] {
            self.0.push(Record::fresh(8, k));
        }
        for reach in [4, 5] {
            self.0.push(Record { reach, ..panel() });
        }
        for place in [16, 17] {
            self.0.push(Record { place, ..panel() });
        }
        for (index, count) in [(1, 8), (1, 9), (4, 9), (5, 9), (64, u32::MAX)] {
            let mut panel = panel();
            panel.counts[index as usize - 1] = count;
            self.0.push(panel);
        }
    }

    fn readers(&mut self) {
        for (reader, point) in [(0, 0), (0, 1), (14, 2_147_483_646), (14, 2_147_483_647)] {
            let panel = with_reader(reader, looking_up(point, Search::Unread, 0));
            self.0.push(panel);
        }
        for (reach, next) in [(4, 4), (5, 1), (0, 0), (2, 0), (2, 3)] {
            let search = Search::Probing { reach, next };
            let panel = with_reader(0, looking_up(1, search, 0));
            self.0.push(panel);
        }
        for steps in [5, 6] {
            let panel = with_reader(0, looking_up(1, Search::Unread, steps));
            self.0.push(panel);
        }
        for next in [7, 8] {
            self.0.push(with_reader(14, Reader::Walking { next }));
        }
    }

    fn puts(&mut self) {
        for (point, index) in [
            (0, 1),
            (2_147_483_646, 4),
            (2_147_483_647, 4),
            (1, 0),
            (1, 5),
        ] {
            let panel = putting(point, PutStage::Scanning(index), 0);
            self.0.push(panel);
        }
        for (reach, next) in [(4, 4), (5, 1)] {
            let search = Search::Probing { reach, next };
            let panel = putting(1, PutStage::Searching(search), 0);
            self.0.push(panel);
        }
        for index in [0, 4, 5] {
            let panel = putting(1, PutStage::Found(place(index)), 0);
            self.0.push(panel);
        }
        for index in [0, 4, 5] {
            let panel = putting(1, PutStage::Chosen(index), 0);
            self.0.push(panel);
        }
        for steps in [10, 11] {
            let panel = putting(1, PutStage::Scanning(1), steps);
            self.0.push(panel);
        }
    }

    fn changes(&mut self) {
        let masks = Alteration::Given {
            keep: u32::MAX,
            flip: u32::MAX,
        };
        let unread = ChangeStage::Searching(Search::Unread);
        for point in [0, 1] {
            self.0.push(changing(point, masks, unread, 0));
        }
        let beyond = ChangeStage::Searching(Search::Probing { reach: 2, next: 3 });
        self.0.push(changing(1, masks, beyond, 0));
        for index in [4, 5] {
            let found = ChangeStage::Found(place(index));
            self.0.push(changing(1, masks, found, 0));
        }
        for (station, number, action) in [
            (32, 16_777_215, 2),
            (0, 1, 0),
            (33, 1, 0),
            (1, 0, 0),
            (1, 16_777_216, 0),
            (1, 1, 3),
        ] {
            let command = Alteration::Commanded {
                station,
                number,
                action,
            };
            let panel = changing(1, command, unread, 0);
            self.0.push(panel);
        }
        for steps in [6, 7] {
            self.0.push(changing(1, masks, unread, steps));
        }
    }

    fn removals(&mut self) {
        for point in [0, 1] {
            let panel = removing(point, RemovalStage::Lowering, 0);
            self.0.push(panel);
        }
        let beyond = RemovalStage::Searching(Search::Probing { reach: 0, next: 1 });
        self.0.push(removing(1, beyond, 0));
        for index in [0, 1, 5] {
            let panel = removing(1, RemovalStage::Found(place(index)), 0);
            self.0.push(panel);
        }
        for steps in [7, 8] {
            let panel = removing(1, RemovalStage::Lowering, steps);
            self.0.push(panel);
        }
    }

    fn stations(&mut self) {
        for (station, number, point, action) in [
            (1, 16_777_215, 1, 2),
            (1, 16_777_216, 1, 2),
            (32, 1, 0, 2),
            (32, 1, 2_147_483_647, 2),
            (32, 1, 1, 3),
            (32, 0, 0, 3),
        ] {
            let mut panel = panel();
            panel.stations[station as usize - 1] = Station {
                number,
                point,
                action,
                answer: None,
            };
            self.0.push(panel);
        }
    }
}

fn panel() -> Record {
    Record::fresh(8, 4)
}

fn with_reader(reader: usize, work: Reader) -> Record {
    let mut panel = panel();
    panel.readers[reader] = work;
    panel
}

fn looking_up(point: u32, search: Search, steps: u32) -> Reader {
    Reader::LookingUp {
        point,
        search,
        steps,
    }
}

fn with_writer(writer: Writer) -> Record {
    Record { writer, ..panel() }
}

fn putting(point: u32, stage: PutStage, steps: u32) -> Record {
    with_writer(Writer::Putting {
        point,
        value: u32::MAX,
        stage,
        steps,
    })
}

fn place(index: u32) -> Place {
    Place {
        index,
        value: u32::MAX,
    }
}

fn changing(point: u32, alteration: Alteration, stage: ChangeStage, steps: u32) -> Record {
    with_writer(Writer::Changing {
        point,
        alteration,
        stage,
        steps,
    })
}

fn removing(point: u32, stage: RemovalStage, steps: u32) -> Record {
    with_writer(Writer::Removing {
        point,
        stage,
        steps,
    })
}
