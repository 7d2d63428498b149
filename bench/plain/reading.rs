//! A plain reader of logs, with owned values: what the yardsticks decode by. It makes the checks of the format
//! (docs/FORMATS.md), and tells any fault as one word.

pub type Fault = &'static str;

#[derive(Clone, PartialEq, Eq, PartialOrd, Ord, Hash, Debug)]
pub enum Value {
    Null,
    Number(i64),
    Text(Box<[u8]>),
    Raw(Box<[u8]>),
}

pub type Cells = Vec<(u8, Value)>;

#[derive(Clone, Copy, PartialEq, Eq, Hash, Debug)]
pub struct Xid {
    pub usn: u16,
    pub slot: u16,
    pub sqn: u32,
}

#[derive(Clone, Copy, PartialEq, Eq, Debug)]
pub enum Op {
    Insert,
    Update,
    Delete,
}

pub struct Change {
    pub op: Op,
    pub table: u32,
    pub old: Cells,
    pub new: Cells,
}

#[derive(Clone, Copy, PartialEq, Eq, Debug)]
pub enum Kind {
    Number,
    Text(u16),
    Raw(u16),
}

pub struct Column {
    pub name: Box<[u8]>,
    pub kind: Kind,
    pub nullable: bool,
}

pub struct Table {
    pub id: u32,
    pub schema: Box<[u8]>,
    pub name: Box<[u8]>,
    pub columns: Vec<Column>,
    /// The primary key first.
    pub keys: Vec<Box<[u8]>>,
}

pub enum Vector {
    Start(Xid),
    Change(Xid, Change),
    Undo(Xid),
    Commit(Xid),
    Rollback(Xid),
    Table(Table),
    DictEnd,
}

pub struct Record {
    pub scn: u64,
    pub vectors: Vec<Vector>,
}

struct Cursor<'a> {
    left: &'a [u8],
}

impl<'a> Cursor<'a> {
    fn take(&mut self, count: usize) -> Result<&'a [u8], Fault> {
        let (front, rest) = self.left.split_at_checked(count).ok_or("END")?;
        self.left = rest;
        Ok(front)
    }
    fn u8(&mut self) -> Result<u8, Fault> {
        Ok(self.take(1)?[0])
    }
    fn u16(&mut self) -> Result<u16, Fault> {
        Ok(u16::from_be_bytes(self.take(2)?.try_into().unwrap()))
    }
    fn u32(&mut self) -> Result<u32, Fault> {
        Ok(u32::from_be_bytes(self.take(4)?.try_into().unwrap()))
    }
    fn u64(&mut self) -> Result<u64, Fault> {
        Ok(u64::from_be_bytes(self.take(8)?.try_into().unwrap()))
    }
    fn xid(&mut self) -> Result<Xid, Fault> {
        Ok(Xid { usn: self.u16()?, slot: self.u16()?, sqn: self.u32()? })
    }
    fn content(&mut self) -> Result<&'a [u8], Fault> {
        match self.u16()? as usize {
            0 => Err("EMPTY"),
            501.. => Err("SIZE"),
            count => self.take(count),
        }
    }
    fn value(&mut self) -> Result<Value, Fault> {
        match self.u8()? {
            0 => Ok(Value::Null),
            1 => Ok(Value::Number(self.u64()? as i64)),
            2 => {
                let text = self.content()?;
                std::str::from_utf8(text).map_err(|_| "UTF8")?;
                Ok(Value::Text(text.into()))
            }
            3 => Ok(Value::Raw(self.content()?.into())),
            _ => Err("TAG"),
        }
    }
    fn count(&mut self, least: u8, most: u8) -> Result<u8, Fault> {
        let count = self.u8()?;
        if count < least || count > most { Err("CELLS") } else { Ok(count) }
    }
    fn column(&mut self, least: u8) -> Result<u8, Fault> {
        let column = self.u8()?;
        if column > 31 || column < least { Err("CELLS") } else { Ok(column) }
    }
    fn cells(&mut self) -> Result<Cells, Fault> {
        let count = self.count(0, 32)?;
        let mut cells = Vec::with_capacity(count as usize);
        let mut least = 0;
        for _ in 0..count {
            let column = self.column(least)?;
            least = column + 1;
            cells.push((column, self.value()?));
        }
        Ok(cells)
    }
    fn name(&mut self) -> Result<Box<[u8]>, Fault> {
        match self.u8()? as usize {
            count @ 1..=30 => Ok(self.take(count)?.into()),
            _ => Err("SIZE"),
        }
    }
    fn key(&mut self) -> Result<Box<[u8]>, Fault> {
        let count = self.count(1, 32)?;
        let mut columns = Vec::with_capacity(count as usize);
        let mut least = 0;
        for _ in 0..count {
            let column = self.column(least)?;
            least = column + 1;
            columns.push(column);
        }
        Ok(columns.into())
    }
    fn of_table(&mut self) -> Result<Column, Fault> {
        let name = self.name()?;
        let kind = match (self.u8()?, self.u16()?) {
            (1, 0) => Kind::Number,
            (2, size @ 1..=500) => Kind::Text(size),
            (3, size @ 1..=500) => Kind::Raw(size),
            (1..=3, _) => return Err("SIZE"),
            _ => return Err("TAG"),
        };
        match self.u8()? {
            flag @ 0..=1 => Ok(Column { name, kind, nullable: flag == 1 }),
            _ => Err("TAG"),
        }
    }
    fn table(&mut self) -> Result<Table, Fault> {
        let id = self.u32()?;
        let schema = self.name()?;
        let name = self.name()?;
        let columns = (0..self.count(1, 32)?).map(|_| self.of_table()).collect::<Result<_, _>>()?;
        let mut keys = vec![self.key()?];
        for _ in 0..self.count(0, 4)? {
            keys.push(self.key()?);
        }
        Ok(Table { id, schema, name, columns, keys })
    }
    fn change(&mut self, op: Op) -> Result<Vector, Fault> {
        let xid = self.xid()?;
        let change = Change { op, table: self.u32()?, old: self.cells()?, new: self.cells()? };
        Ok(Vector::Change(xid, change))
    }
    fn vector(&mut self) -> Result<Vector, Fault> {
        Ok(match self.u8()? {
            1 => Vector::Start(self.xid()?),
            2 => self.change(Op::Insert)?,
            3 => self.change(Op::Update)?,
            4 => self.change(Op::Delete)?,
            5 => Vector::Undo(self.xid()?),
            6 => Vector::Commit(self.xid()?),
            7 => Vector::Rollback(self.xid()?),
            8 => Vector::Table(self.table()?),
            9 => Vector::DictEnd,
            _ => return Err("KIND"),
        })
    }
}

/// Decodes one record.
pub fn decode(bytes: &[u8]) -> Result<Record, Fault> {
    let mut cursor = Cursor { left: bytes };
    cursor.u32()?;
    let scn = cursor.u64()?;
    let count = cursor.u16()?;
    let mut vectors = Vec::with_capacity(count as usize);
    for _ in 0..count {
        vectors.push(cursor.vector()?);
    }
    if cursor.left.is_empty() { Ok(Record { scn, vectors }) } else { Err("END") }
}

/// How long the first record is; None where no whole record is there.
pub fn first(bytes: &[u8]) -> Result<Option<usize>, Fault> {
    let Some(size) = bytes.first_chunk::<4>() else {
        return Ok(None);
    };
    let size = u32::from_be_bytes(*size) as usize;
    if !(15..=65536).contains(&size) {
        return Err("LENGTH");
    }
    if bytes.len() < size {
        return Ok(None);
    }
    match u16::from_be_bytes([bytes[12], bytes[13]]) {
        1..=255 => Ok(Some(size)),
        _ => Err("COUNT"),
    }
}
