//! Statements and their status variables, load queries, and user variables.

use binlog::consts::{ItemResult, LoadDuplicateHandling, StatusVarKey};
use binlog::events::{ExecuteLoadQueryEvent, QueryEvent, StatusVarVal, StatusVars, UserVarEvent};

use crate::case::{Case, Forms, Maker, read, written};
use crate::encoder::Encoder;
use crate::random::Random;

pub const MAKERS: [Maker; 3] = [query, execute_load_query, user_var];

/// The value of a status variable.
#[derive(Clone)]
enum Value {
    /// A number of so many bytes.
    Number(u64, usize),
    /// Numbers of two bytes each.
    Pairs(Vec<u16>),
    /// One text or two, each after its length, and whether a byte of zero ends it.
    Texts(Vec<Vec<u8>>, bool),
    /// Names that a byte of zero ends, after their count; None if there were too many.
    Names(Option<Vec<Vec<u8>>>),
    Nothing,
}

impl Value {
    /// A value of the key with this number.
    fn new(key: u8, random: &mut Random) -> Value {
        match key {
            0 | 10 => Value::Number(random.number(32), 4),
            1 | 9 | 17 => Value::Number(random.u64(), 8),
            2 => Value::Texts(vec![random.bytes(255)], true),
            3 => Value::Pairs(vec![random.u16(), random.u16()]),
            4 => Value::Pairs(vec![random.u16(), random.u16(), random.u16()]),
            5 | 6 => Value::Texts(vec![random.bytes(255)], false),
            7 | 8 | 18 => Value::Number(random.number(16), 2),
            11 => Value::Texts(vec![random.bytes(255), random.bytes(255)], false),
            12 if random.one_in(8) => Value::Names(None),
            12 => {
                let count = random.below(5);
                Value::Names(Some((0..count).map(|_| name(random)).collect()))
            }
            13 => Value::Number(random.number(24), 3),
            14 | 15 => Value::Nothing,
            _ => Value::Number(random.number(8), 1),
        }
    }

    fn encoded(&self) -> Vec<u8> {
        let out = Encoder::new();
        match self {
            Value::Number(number, width) => out.int(*number, *width),
            Value::Pairs(numbers) => numbers.iter().fold(out, |out, number| out.int(*number, 2)),
            Value::Texts(texts, is_ended) => {
                let out = texts.iter().fold(out, |out, text| out.counted(text, 1));
                out.maybe(*is_ended, |out| out.int(0_u64, 1))
            }
            Value::Names(None) => out.int(254_u64, 1),
            Value::Names(Some(names)) => {
                let out = out.int(names.len() as u64, 1);
                names
                    .iter()
                    .fold(out, |out, name| out.bytes(name).int(0_u64, 1))
            }
            Value::Nothing => out,
        }
        .done()
    }

    /// Whether the library's value is this one.
    fn is(&self, read: &StatusVarVal<'_>) -> bool {
        use StatusVarVal as Read;
        match (read, self) {
            (Read::Flags2(number), Value::Number(value, 4)) => u64::from(*number) == *value,
            (Read::MasterDataWritten(bytes), Value::Number(value, 4)) => {
                u64::from(u32::from_le_bytes(*bytes)) == *value
            }
            (
                Read::SqlMode(number)
                | Read::TableMapForUpdate(number)
                | Read::DdlLoggedWithXid(number),
                Value::Number(value, 8),
            ) => number == value,
            (
                Read::LcTimeNames(number)
                | Read::CharsetDatabase(number)
                | Read::DefaultCollationForUtf8mb4(number),
                Value::Number(value, 2),
            ) => u64::from(*number) == *value,
            (Read::Microseconds(number), Value::Number(value, 3)) => u64::from(*number) == *value,
            (Read::ExplicitDefaultsForTimestamp(is_set), Value::Number(value, 1)) => {
                *is_set == (*value != 0)
            }
            (
                Read::SqlRequirePrimaryKey(number) | Read::DefaultTableEncryption(number),
                Value::Number(value, 1),
            ) => u64::from(*number) == *value,
            (Read::AutoIncrement { increment, offset }, Value::Pairs(pairs)) => {
                pairs[..] == [*increment, *offset]
            }
            (
                Read::Charset {
                    charset_client,
                    collation_connection,
                    collation_server,
                },
                Value::Pairs(pairs),
            ) => pairs[..] == [*charset_client, *collation_connection, *collation_server],
            (Read::Catalog(bytes), Value::Texts(_, true)) => *bytes == self.encoded(),
            (Read::TimeZone(text) | Read::CatalogNz(text), Value::Texts(texts, false)) => {
                texts[..] == [text.as_bytes()]
            }
            (Read::Invoker { username, hostname }, Value::Texts(texts, false)) => {
                texts[..] == [username.as_bytes(), hostname.as_bytes()]
            }
            (Read::UpdatedDbNames(names), Value::Names(values)) => {
                let values = values.clone().unwrap_or_default();
                names
                    .iter()
                    .map(|name| name.as_bytes())
                    .eq(values.iter().map(|name| &name[..]))
            }
            (Read::CommitTs(bytes) | Read::CommitTs2(bytes), Value::Nothing) => bytes.is_empty(),
            _ => false,
        }
    }
}

/// Bytes without a zero.
fn name(random: &mut Random) -> Vec<u8> {
    random
        .bytes(64)
        .into_iter()
        .map(|byte| byte.max(1))
        .collect()
}

/// Status variables, each key at most once, and their encoding.
struct Variables {
    values: Vec<(u8, Value)>,
    encoded: Vec<u8>,
}

impl Variables {
    fn new(random: &mut Random) -> Self {
        let most = random.below(9);
        let values: Vec<_> = (0..=20)
            .filter_map(|key| {
                let is_there = random.below(21) < most;
                is_there.then(|| (key, Value::new(key, random)))
            })
            .collect();
        let encoded = values
            .iter()
            .flat_map(|(key, value)| [vec![*key], value.encoded()].concat());
        Variables {
            encoded: encoded.collect(),
            values,
        }
    }

    fn check(&self, read: &StatusVars<'_>) {
        assert_eq!(read.iter().count(), self.values.len());
        for (variable, (key, value)) in read.iter().zip(&self.values) {
            assert_eq!(variable.key(), StatusVarKey::try_from(*key).unwrap());
            assert_eq!(variable.raw(), value.encoded());
            let read_value = variable.get_value().unwrap();
            assert!(value.is(&read_value), "{read_value:?}");
            assert_eq!(
                read.get_status_var(variable.key()).map(|found| found.raw()),
                Some(variable.raw())
            );
        }
    }
}

/// The fields that queries and load queries share.
struct Statement {
    thread: u32,
    time: u32,
    error: u16,
    variables: Variables,
    schema: Vec<u8>,
    query: Vec<u8>,
}

impl Statement {
    fn new(random: &mut Random) -> Self {
        Statement {
            thread: random.u32(),
            time: random.u32(),
            error: random.u16(),
            variables: Variables::new(random),
            schema: random.bytes(255),
            query: random.bytes(70_000),
        }
    }

    /// The body, with these bytes at the end of the post-header.
    fn encoded(&self, post_header: &[u8]) -> Vec<u8> {
        Encoder::new()
            .int(self.thread, 4)
            .int(self.time, 4)
            .int(self.schema.len() as u64, 1)
            .int(self.error, 2)
            .int(self.variables.encoded.len() as u64, 2)
            .bytes(post_header)
            .bytes(&self.variables.encoded)
            .bytes(&self.schema)
            .int(0_u64, 1)
            .bytes(&self.query)
            .done()
    }
}

fn query(random: &mut Random, forms: &Forms) -> Case {
    let statement = Statement::new(random);
    let skipped = random.array::<8>()[..usize::from(forms.post_header(2)) - 13].to_vec();
    let written_body = statement.encoded(&[]);
    let case = Case::new(2, statement.encoded(&skipped), move |event, expected| {
        let query: QueryEvent = read(event, expected);
        assert_eq!(query.thread_id(), statement.thread);
        assert_eq!(query.execution_time(), statement.time);
        assert_eq!(query.error_code(), statement.error);
        assert_eq!(query.schema_raw(), statement.schema);
        assert_eq!(query.query_raw(), statement.query);
        assert_eq!(query.status_vars_raw(), statement.variables.encoded);
        statement.variables.check(query.status_vars());
        let made = QueryEvent::new(&statement.variables.encoded[..], &statement.schema[..])
            .with_thread_id(statement.thread)
            .with_execution_time(statement.time)
            .with_error_code(statement.error)
            .with_query(&statement.query[..]);
        assert_eq!(written(&made), expected);
    });
    case.written_as(written_body)
}

fn execute_load_query(random: &mut Random, _: &Forms) -> Case {
    let statement = Statement::new(random);
    let handlings = [
        LoadDuplicateHandling::LOAD_DUP_ERROR,
        LoadDuplicateHandling::LOAD_DUP_IGNORE,
        LoadDuplicateHandling::LOAD_DUP_REPLACE,
    ];
    let (file, start, end, number) = (random.u32(), random.u32(), random.u32(), random.below(3));
    let handling = handlings[number as usize];
    let load = Encoder::new()
        .int(file, 4)
        .int(start, 4)
        .int(end, 4)
        .int(number, 1)
        .done();
    Case::new(18, statement.encoded(&load), move |event, expected| {
        let query: ExecuteLoadQueryEvent = read(event, expected);
        assert_eq!(query.thread_id(), statement.thread);
        assert_eq!(query.execution_time(), statement.time);
        assert_eq!(query.error_code(), statement.error);
        assert_eq!(
            (query.file_id(), query.start_pos(), query.end_pos()),
            (file, start, end)
        );
        assert_eq!(query.dup_handling(), handling);
        assert_eq!(query.schema_raw(), statement.schema);
        assert_eq!(query.query_raw(), statement.query);
        statement.variables.check(query.status_vars());
        let made = query
            .clone()
            .with_file_id(file)
            .with_start_pos(start)
            .with_end_pos(end)
            .with_dup_handling(handling)
            .with_thread_id(statement.thread)
            .with_query(&statement.query[..]);
        assert_eq!(written(&made), expected);
    })
}

/// A variable has no value, or one with flags, which older servers don't write.
fn user_var(random: &mut Random, _: &Forms) -> Case {
    let name = random.bytes(600);
    let is_null = random.one_in(4);
    let has_flags = random.flag();
    let (kind, charset, value) = (random.below(7) as u8, random.u32(), random.bytes(70_000));
    let flags = if has_flags && !is_null {
        random.u8()
    } else {
        0
    };
    let front = Encoder::new().counted(&name, 4).int(is_null, 1);
    let front = front.maybe(!is_null, |out| {
        out.int(kind, 1).int(charset, 4).counted(&value, 4)
    });
    let body = front
        .clone()
        .maybe(!is_null && has_flags, |out| out.int(flags, 1))
        .done();
    let written_body = front.maybe(!is_null, |out| out.int(flags, 1)).done();
    let case = Case::new(14, body, move |event, expected| {
        let variable: UserVarEvent = read(event, expected);
        assert_eq!(
            (variable.name_raw(), variable.is_null()),
            (&name[..], is_null)
        );
        assert_eq!(variable.flags_raw(), flags);
        if is_null {
            assert_eq!((variable.value(), variable.charset()), (&[][..], 63));
            assert_eq!(variable.value_type(), Ok(ItemResult::STRING_RESULT));
        } else {
            assert_eq!(
                (variable.value(), variable.charset()),
                (&value[..], charset)
            );
            assert_eq!(
                variable
                    .value_type()
                    .map_or_else(|unknown| unknown.0, i8::from),
                kind.cast_signed()
            );
        }
    });
    case.written_as(written_body)
}
