use crate::{Call, Job, Sheet};

const COLUMNS: usize = 14;
const MAX_VEHICLE_COUNT: u64 = 16;
const MAX_STOP_COUNT: u64 = 64;
const MAX_LOCATION_COUNT: u64 = 80;
const MAX_DRAW_COUNT: u64 = 1024;
const MAX_GIVEN_STOP_COUNT: usize = 8;
const MAX_PLAN_LENGTH: usize = 96;

/// Input that is no job file or no call sheet: refusal 14.
#[derive(Clone, Copy, Debug, Eq, PartialEq)]
pub struct Malformed;

/// Reads a job file and answers the input after it.
pub fn read_job(input: &[u8]) -> Result<(Job, &[u8]), Malformed> {
    let mut reader = Reader { input };
    let job = reader.job()?;

    Ok((job, reader.input))
}

/// Reads a call sheet and answers the input after it.
pub fn read_sheet(input: &[u8]) -> Result<(Sheet, &[u8]), Malformed> {
    let mut reader = Reader { input };
    let [number] = reader.small_numbers()?;
    let call = Call::from_number(number as u64).ok_or(Malformed)?;
    let given = match call {
        Call::TwoOpt => reader.small_numbers::<2>()?.to_vec(),
        Call::Rebuild => reader.numbers_up_to(MAX_GIVEN_STOP_COUNT)?,
        Call::Arrive | Call::Cancel => reader.small_numbers::<3>()?.to_vec(),
        Call::View => reader.small_numbers::<1>()?.to_vec(),
        Call::MoveStop => reader.small_numbers::<4>()?.to_vec(),
        Call::Roadworks => reader.small_numbers::<3>()?.to_vec(),
        _ => vec![],
    };
    let plan = if call.has_plan() {
        reader.numbers_up_to(MAX_PLAN_LENGTH)?
    } else {
        vec![]
    };
    let job = reader.job()?;

    Ok((
        Sheet {
            call,
            given,
            plan,
            job,
        },
        reader.input,
    ))
}

struct Reader<'a> {
    input: &'a [u8],
}

impl<'a> Reader<'a> {
    fn job(&mut self) -> Result<Job, Malformed> {
        let line = self.line()?;
        let line = &fields(line)?;

        if line.len() != 8 {
            return Err(Malformed);
        }

        let vehicle_count = limited(line[0], 0, MAX_VEHICLE_COUNT)?;
        let stop_count = limited(line[1], 0, MAX_STOP_COUNT)?;
        let location_count = limited(line[2], 0, MAX_LOCATION_COUNT)?;

        Ok(Job {
            linear: small(line[3])?,
            quadratic: small(line[4])?,
            missed: line[5],
            smoothing: small(line[6])?,
            limit: small(line[7])?,
            vehicles: (0..vehicle_count)
                .map(|_| self.small_numbers())
                .collect::<Result<_, _>>()?,
            stops: (0..stop_count)
                .map(|_| Ok(self.small_numbers::<1>()?[0]))
                .collect::<Result<_, _>>()?,
            distances: (0..location_count)
                .map(|_| self.numbers(location_count))
                .collect::<Result<_, _>>()?,
            draws: {
                let [draw_count] = self.small_numbers()?;

                (0..limited(draw_count as u64, 1, MAX_DRAW_COUNT)?)
                    .map(|_| Ok(self.small_numbers::<1>()?[0]))
                    .collect::<Result<_, _>>()?
            },
        })
    }

    /// The next line without its line feed.
    fn line(&mut self) -> Result<&'a [u8], Malformed> {
        let length = self
            .input
            .iter()
            .position(|&byte| byte == b'\n')
            .ok_or(Malformed)?;
        let (line, rest) = self.input.split_at(length);

        self.input = &rest[1..];

        Ok(line)
    }

    fn numbers_up_to(&mut self, max: usize) -> Result<Vec<u32>, Malformed> {
        let numbers = fields(self.line()?)?;

        if numbers.len() > max {
            return Err(Malformed);
        }

        numbers.into_iter().map(small).collect()
    }

    fn numbers(&mut self, count: usize) -> Result<Vec<u32>, Malformed> {
        let numbers = self.numbers_up_to(count)?;

        if numbers.len() < count {
            return Err(Malformed);
        }

        Ok(numbers)
    }

    fn small_numbers<const N: usize>(&mut self) -> Result<[u32; N], Malformed> {
        self.numbers(N)?.try_into().map_err(|_| Malformed)
    }
}

/// The numbers of a line.
fn fields(line: &[u8]) -> Result<Vec<u64>, Malformed> {
    let (fields, rest) = line.as_chunks::<COLUMNS>();

    if !rest.is_empty() {
        return Err(Malformed);
    }

    fields.iter().map(field).collect()
}

/// A number in decimal with no leading zero, right-justified.
fn field(field: &[u8; COLUMNS]) -> Result<u64, Malformed> {
    let start = field
        .iter()
        .position(|&byte| byte != b' ')
        .ok_or(Malformed)?;
    let digits = &field[start..];

    if digits.len() > 1 && digits[0] == b'0' {
        return Err(Malformed);
    }

    digits.iter().try_fold(0, |number, &byte| {
        if byte.is_ascii_digit() {
            Ok(10 * number + (byte - b'0') as u64)
        } else {
            Err(Malformed)
        }
    })
}

fn small(number: u64) -> Result<u32, Malformed> {
    number.try_into().map_err(|_| Malformed)
}

fn limited(number: u64, min: u64, max: u64) -> Result<usize, Malformed> {
    if (min..=max).contains(&number) {
        Ok(number as usize)
    } else {
        Err(Malformed)
    }
}

#[cfg(test)]
mod tests {
    use super::*;
    use crate::{given_live, job_a, sheet_a, write_job, write_sheet, Road};

    fn reads(text: &str) -> bool {
        matches!(read_job(text.as_bytes()), Ok((_, [])))
    }

    #[test]
    fn reads_what_is_written() {
        let mut job = job_a();

        assert_eq!(
            read_job(write_job(&job).as_bytes()),
            Ok((job.clone(), &b""[..]))
        );

        job.missed = 99_999_999_999_999;
        assert_eq!(
            read_job(write_job(&job).as_bytes()),
            Ok((job.clone(), &b""[..]))
        );

        job = Job {
            draws: vec![u32::MAX],
            ..Job::default()
        };
        assert_eq!(read_job(write_job(&job).as_bytes()), Ok((job, &b""[..])));
    }

    #[test]
    fn reads_every_kind_of_sheet() {
        for call in Call::ALL {
            let sheet = sheet_a(call);

            assert_eq!(
                read_sheet(write_sheet(&sheet).as_bytes()),
                Ok((sheet, &b""[..]))
            );
        }

        for count in 0..10 {
            let sheet = Sheet {
                given: vec![7; count],
                plan: vec![1; 12 * count],
                ..sheet_a(Call::Rebuild)
            };

            assert_eq!(
                read_sheet(write_sheet(&sheet).as_bytes()).is_ok(),
                count <= 8,
            );
        }
    }

    #[test]
    fn reads_a_stop_and_two_halves_of_the_live_stops() {
        for call in [Call::Arrive, Call::Cancel] {
            for count in 0..6 {
                let sheet = Sheet {
                    given: vec![u32::MAX; count],
                    ..sheet_a(call)
                };

                assert_eq!(
                    read_sheet(write_sheet(&sheet).as_bytes()).is_ok(),
                    count == 3,
                );
            }

            let text = write_sheet(&sheet_a(call));

            assert!(read_sheet(text.as_bytes()).is_ok());
            assert!(read_sheet(
                text.replacen("             1", "    4294967296", 1)
                    .as_bytes()
            )
            .is_err());
        }

        let sheet = Sheet {
            given: vec![7, 5, 2],
            ..sheet_a(Call::Arrive)
        };

        assert_eq!(sheet.stop(), 7);
        assert_eq!(sheet.live(), 0x2_0000_0005);
        assert_eq!(given_live(7, sheet.live()), sheet.given);
    }

    #[test]
    fn reads_as_many_numbers_as_a_call_is_given() {
        for (call, number_count) in [(Call::View, 1), (Call::MoveStop, 4), (Call::Roadworks, 3)] {
            for count in 0..7 {
                let sheet = Sheet {
                    given: vec![u32::MAX; count],
                    ..sheet_a(call)
                };

                assert_eq!(
                    read_sheet(write_sheet(&sheet).as_bytes()).is_ok(),
                    count == number_count,
                );
            }

            let text = write_sheet(&sheet_a(call));

            assert!(read_sheet(
                text.replacen("             1", "    4294967296", 1)
                    .as_bytes()
            )
            .is_err());
        }

        let sheet = Sheet {
            given: vec![5, 7, 2, 3],
            ..sheet_a(Call::MoveStop)
        };

        assert_eq!((sheet.vans(), sheet.stop()), (5, 7));
        assert_eq!((sheet.van(), sheet.place()), (2, 3));

        let road = Road {
            from: 5,
            to: 7,
            more: 2,
        };
        let sheet = Sheet {
            given: vec![5, 7, 2],
            ..sheet_a(Call::Roadworks)
        };

        assert_eq!(sheet.road(), road);
        assert_eq!(road.given(), sheet.given);
    }

    #[test]
    fn leaves_what_follows() {
        let text = write_job(&job_a()) + "x";

        assert_eq!(read_job(text.as_bytes()), Ok((job_a(), &b"x"[..])));
    }

    #[test]
    fn refuses_damaged_files() {
        let text = write_job(&job_a());

        assert!(reads(&text));
        assert!(!reads(""));
        assert!(!reads("\n"));
        assert!(!reads(&text[1..]));
        assert!(!reads(&text[..text.len() - 1]));
        assert!(!reads(&(text.clone() + "\n")));
        assert!(!reads(&text.replace('\n', "\r\n")));
        assert!(!reads(&text.replacen(" 1", "01", 1)));
        assert!(!reads(&text.replacen(" 1", "1 ", 1)));
        assert!(!reads(&text.replacen(" 1", "+1", 1)));
        assert!(!reads(&text.replacen(" 1", "-1", 1)));
        assert!(!reads(&text.replacen(' ', "\t", 1)));
        assert!(!reads(&text.replacen('0', " ", 1)));
        assert!(!reads(&text.replacen(
            "             0\n",
            "            00\n",
            1
        )));
    }

    #[test]
    fn reads_numbers_up_to_their_limits() {
        let field = |number: u64| format!("{number:14}");
        let line = |numbers: &[u64]| {
            numbers
                .iter()
                .map(|&number| field(number))
                .collect::<String>()
                + "\n"
        };
        let file = |first: [u64; 8], draw_count: u64| {
            line(&first)
                + &line(&[0, 0]).repeat(first[0] as usize)
                + &line(&[0]).repeat(first[1] as usize)
                + &line(&vec![0; first[2] as usize]).repeat(first[2] as usize)
                + &line(&[draw_count])
                + &line(&[0]).repeat(draw_count as usize)
        };
        let zeros = [0; 8];

        assert!(reads(&file(zeros, 1)));
        assert!(reads(&file(zeros, 1024)));
        assert!(!reads(&file(zeros, 0)));
        assert!(!reads(&file(zeros, 1025)));

        for (index, limit) in [(0, 16), (1, 64), (2, 80)] {
            let mut first = zeros;

            first[index] = limit;
            assert!(reads(&file(first, 1)));
            first[index] += 1;
            assert!(!reads(&file(first, 1)));
        }

        for index in [3, 4, 6, 7] {
            let mut first = zeros;

            first[index] = 4294967295;
            assert!(reads(&file(first, 1)));
            first[index] += 1;
            assert!(!reads(&file(first, 1)));
        }

        assert!(reads(&file([0, 0, 0, 0, 0, 99999999999999, 0, 0], 1)));
    }
}
