//! The satellite teams' documents: their tables as printed, damage and all, as
//! far as a row of the rules needs them.

/// A document: its number among the papers, and its tables.
pub struct Document {
    pub number: &'static str,
    packets: &'static [Packet],
}

/// The table of one type, without what comes before the body and without the
/// checksum.
pub struct Packet {
    kind: u32,
    /// The column of names, with a comma and a blank between them.
    names: &'static str,
    /// The names whose print is damaged, by number, from 0.
    pub damaged: &'static [usize],
    /// The column of bits, and the sum that is printed below it. It has been
    /// typed where 01 has no line for the type.
    bits: Option<(&'static [usize], usize)>,
}

/// In a column of bits: a width that cannot be read.
const UNREAD: usize = 0;

const fn packet(kind: u32, names: &'static str, damaged: &'static [usize]) -> Packet {
    Packet {
        kind,
        names,
        damaged,
        bits: None,
    }
}

impl Packet {
    const fn with_bits(self, column: &'static [usize], sum: usize) -> Packet {
        Packet {
            bits: Some((column, sum)),
            ..self
        }
    }

    /// The names as printed.
    pub fn names(&self) -> impl Iterator<Item = &'static str> {
        self.names.split(", ")
    }

    /// The name at a place, counted from 0.
    pub fn name(&self, place: usize) -> &'static str {
        self.names()
            .nth(place)
            .unwrap_or_else(|| panic!("type {} has no name {}", self.kind, place))
    }

    /// The width beside a name, which is printed with capitals or without.
    fn width_of(&self, name: &str) -> usize {
        let place = self.names().position(|any| any.eq_ignore_ascii_case(name));
        match (self.bits, place) {
            (Some((column, _)), Some(place)) => column[place],
            _ => panic!("type {} has no width of {}", self.kind, name),
        }
    }
}

/// HADES-D. In type 8, "ilpk" has the letter l for the digit 1.
pub const DOCUMENT_001: Document = Document {
    number: "001",
    packets: &[
        packet(
            2,
            "Tpa, Tpb, Tpc, Tpd, Tpe, Teps, Ttx, ttx2, Trx, Tcpu",
            &[],
        ),
        packet(
            5,
            "Mintpa, Mintpb, Mintpc, Mintpd, Mintpe, \
             Minteps, Minttx, minttx2, Mintrx, Mintcpu, \
             Maxtpa, Maxtpb, Maxtpc, Maxtpd, Maxtpe, \
             Maxteps, Maxttx, maxttx2, Maxtrx, Maxtcpu, \
             Medtpa, Medtpb, Medtpc, Medtpd, Medtpe, \
             Medteps, Medttx, medttx2, Medtrx, Medtcpu",
            &[],
        ),
        packet(
            8,
            "v1oc, v1, i1, ilpk, r1, v2oc, v2, r2, t0, Td, \
             state_begin:1;, state_end:1;, state_now:1;, enable:1;, Counter, Tmp",
            &[3],
        ),
    ],
};

/// HADES-ICM, MARIA-G, UNNE-1, HADES-R. None of its names is damaged, and its
/// type 8, which 01 gives to none of the four, mends those of the others.
///
/// Type 7 prints "data" and puts the size beside it, "char 0 - char 92"; the
/// size is in brackets here, as type 6 has it.
pub const DOCUMENT_002: Document = Document {
    number: "002",
    packets: &[
        packet(
            1,
            "Sclock, Spa, Spb, Spc, Spd, Spi, \
             vbus1, vbat1, Vcpu, vbus2, vbus3, vbat2, Ibat, Icpu, Ipl, \
             Peaksignal, Modasignal, Lastcmdsignal, Lastcmdnoise",
            &[],
        )
        .with_bits(
            &[
                32, 8, 8, 8, 8, 16, 12, 12, 12, 16, 12, 12, 12, 12, 12, 8, 8, 8, 8,
            ],
            248,
        ),
        packet(
            2,
            "Sclock, Tpa, Tpb, Tpc, Tpd, Tpe, Teps, Ttx, ttx2, Trx, Tcpu",
            &[],
        ),
        packet(
            5,
            "Sclock, \
             Mintpa, Mintpb, Mintpc, Mintpd, Mintpe, \
             Minteps, Minttx, minttx2, Mintrx, Mintcpu, \
             Maxtpa, Maxtpb, Maxtpc, Maxtpd, Maxtpe, \
             Maxtpeps, Maxttx, maxttx2, Maxtrx, Maxtcpu",
            &[],
        ),
        packet(
            6,
            "td[6], v - valores luz[8][6], p - valores pico[8] - 16 bits, \
             err sensor en error[8]",
            &[],
        ),
        packet(7, "Sclock, message_number, data[93]", &[]),
        packet(
            8,
            "v1oc, v1, i1, i1pk, r1, v2oc, v2, r2, t0, td, \
             state_begin:1;, state_end:1;, state_now:1;, enable:1;, counter, tmp",
            &[],
        ),
        packet(
            10,
            "clock_tx, week_number, stored_status, \
             data0, data1, data2, data3, data4, data5, data6, data7",
            &[],
        ),
        packet(11, "clock_tx, data0, data1", &[]),
        packet(
            12,
            "UTC, adr, ful, fdl, tle.epoch, tle.xndt2o, tle.xnnd6o, tle.bstar, \
             tle.xincl, tle.xnodeo, tle.eo, tle.omegao, tle.xmo, tle.xno, \
             lat, lon, alt, cnt",
            &[],
        ),
    ],
};

/// UNNE-1B. In types 2 and 5 four names have lost one of the two letters t:
/// the lines describe TTX and TTX2, and the minima have both letters.
pub const DOCUMENT_004: Document = Document {
    number: "004",
    packets: &[
        packet(
            1,
            "Sclock, Spa, Spb, spc, spd, spi, \
             vbus1, vbat1, vcpu, vbus2, vbus3, vbat2, ibat, icpu, ipl, \
             peaksignal, modasignal, lastcmdsignal, lastcmdnoise",
            &[],
        )
        .with_bits(
            &[
                32, 8, 8, 8, 8, 16, 12, 12, 12, 16, 12, 12, 12, 12, 12, 8, 8, 8, 8,
            ],
            248,
        ),
        packet(
            2,
            "sclock, tpa, tpb, tpc, tpd, tpe, teps, tx, tx2, Trx, Tcpu",
            &[7, 8],
        ),
        packet(
            5,
            "sclock, \
             mintpa, mintpb, mintpc, mintpd, mintpe, \
             minteps, minttx, minttx2, mintrx, mintcpu, \
             maxtpa, maxtpb, maxtpc, maxtpd, maxtpe, \
             maxteps, maxtx, maxtx2, maxtrx, maxtcpu",
            &[17, 18],
        ),
        packet(
            6,
            "td[6], v - valores luz[8][6], p - valores pico[8] - 16 bits, \
             err sensor en error[8]",
            &[],
        ),
        packet(
            10,
            "clock_tx, week_number, stored_status, \
             data0, data1, data2, data3, data4, data5, data6, data7",
            &[],
        ),
        packet(
            12,
            "UTC, adr, ful, fdl, tle.epoch, tle.xndt2o, tle.xndd6o, tle.bstar, \
             tle.xincl, tle.xnodeo, tle.eo, tle.omegao, tle.xmo, tle.xno, \
             lat, lon, alt, cnt",
            &[],
        ),
    ],
};

/// HADES-SA. Type 1 has l for 1 in two names and e for c in a third, and lacks
/// four widths. Type 8 has l for 1 in five names, a zero and a cent sign for two
/// letters, and a blank for an underscore; type 12 has a zero for the letter o.
pub const DOCUMENT_000: Document = Document {
    number: "000",
    packets: &[
        packet(
            1,
            "sclock, spa, spb, spc, spd, spi, \
             vbusl, vbatl, vepu, vbus2, vbus3, vbat2, ibat, icpu, ipl, \
             peaksignal, modasignal, lastcmdsignal, lastcmdnoise",
            &[6, 7, 8],
        )
        .with_bits(
            &[
                32, UNREAD, UNREAD, UNREAD, UNREAD, 16, 12, 12, 12, 16, 12, 12, 12, 12, 12, 8, 8,
                8, 8,
            ],
            248,
        ),
        packet(
            2,
            "sclock, tpa, tpb, tpc, tpd, tpe, teps, ttx, ttx2, trx, tcpu",
            &[],
        ),
        packet(
            5,
            "sclock, \
             mintpa, mintpb, mintpc, mintpd, mintpe, \
             minteps, minttx, minttx2, mintrx, mintcpu, \
             maxtpa, maxtpb, maxtpc, maxtpd, maxtpe, \
             maxteps, maxttx, maxttx2, maxtrx, maxtcpu",
            &[],
        ),
        packet(
            8,
            "vloc, vl, il, ilpk, rl, v20¢, v2, r2, t0, td, \
             state_begin:1;, state_end:1;, state now:1;, enable:1;, counter, tmp",
            &[0, 1, 2, 3, 4, 5, 12],
        ),
        packet(
            12,
            "UTC, adr, ful, fdl, tle.epoch, tle.xndt20, tle.xndd6o, tle.bstar, \
             tle.xincl, tle.xnodeo, tle.eo, tle.omegao, tle.xmo, tle.xno, \
             lat, lon, alt, cnt",
            &[5],
        ),
    ],
};

impl Document {
    /// The table of a type.
    pub fn packet(&self, kind: u32) -> &'static Packet {
        self.packets
            .iter()
            .find(|packet| packet.kind == kind)
            .unwrap_or_else(|| panic!("document {} has no type {} here", self.number, kind))
    }

    /// The widths of a type, where they have been typed, and the sum that the
    /// document prints. A width that cannot be read is that of the field of the
    /// same name in document 002 (02, "One").
    pub fn widths(&self, kind: u32) -> Option<(Vec<usize>, usize)> {
        let packet = self.packet(kind);
        let (column, sum) = packet.bits?;
        let mut widths = column.to_vec();
        for (place, width) in widths.iter_mut().enumerate() {
            if *width == UNREAD {
                *width = DOCUMENT_002.packet(kind).width_of(packet.name(place));
            }
        }
        Some((widths, sum))
    }
}
