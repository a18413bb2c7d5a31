//! The check of an image (refusals 1 to 7) and its quote.
//!
//! The original has no check. This one guards the reference: an image that it refuses is not run.

use crate::image::{
    Image, Kind, StatementRow, ABSENT, BLOCK_SIZE, EXPRESSION_SIZE, HEADER_SIZE, STATEMENT_SIZE,
};
use crate::place::Place;

const MAX_NESTING: u32 = 32;

/// An image that passed, and its quote: the most that a run counts, if no loop occurs.
#[derive(Debug, Clone)]
pub struct Checked {
    pub image: Image,
    pub quote: Option<u32>,
}

/// Check an image; the error is the number of the refusal.
pub fn check(bytes: &[u8]) -> Result<Checked, u8> {
    check_header(bytes)?;
    check_sizes(bytes)?;
    let image = Image::from_bytes(bytes);
    check_blocks_in_order(&image)?;
    check_rows(&image)?;
    let parents = check_naming(&image)?;
    check_nesting(&image, &parents)?;
    check_loops(&image, &parents)?;
    let quote = quote_block(&image, 0);
    Ok(Checked { image, quote })
}

fn require(condition: bool, refusal: u8) -> Result<(), u8> {
    if condition {
        Ok(())
    } else {
        Err(refusal)
    }
}

fn check_header(bytes: &[u8]) -> Result<(), u8> {
    require(
        bytes.len() >= HEADER_SIZE && bytes.starts_with(b"RHS\x01\x00\x00"),
        1,
    )
}

fn check_sizes(bytes: &[u8]) -> Result<(), u8> {
    let count = |i: usize| usize::from(crate::image::read_u16(bytes, 6 + 2 * i));
    let (b, s, e, n) = (count(0), count(1), count(2), count(3));
    require((1..=256).contains(&b), 2)?;
    require(s <= 1_024 && e <= 1_024 && n <= 2_048, 2)?;
    let length = HEADER_SIZE + BLOCK_SIZE * b + STATEMENT_SIZE * s + EXPRESSION_SIZE * e + n;
    require(bytes.len() == length, 2)
}

fn check_blocks_in_order(image: &Image) -> Result<(), u8> {
    let mut next = 0usize;
    for block in &image.blocks {
        require(usize::from(block.first) == next, 3)?;
        next += usize::from(block.count);
    }
    require(next == image.statements.len(), 3)
}

/// What a statement kind reads of its row.
struct Fields {
    e: Need,
    name: Need,
    second_name: bool,
    p: bool,
    q: bool,
}

#[derive(PartialEq, Clone, Copy)]
enum Need {
    Unread,
    Optional,
    Required,
}

fn fields_of(kind: Kind) -> Fields {
    use Need::{Optional, Required, Unread};
    let fields = |e, name, p, q| Fields {
        e,
        name,
        second_name: kind == Kind::For,
        p,
        q,
    };
    match kind {
        Kind::Noop => fields(Unread, Unread, false, false),
        Kind::Expr => fields(Required, Unread, false, false),
        Kind::Block => fields(Unread, Unread, true, false),
        Kind::Assignment | Kind::Var => fields(Required, Required, false, false),
        Kind::If => fields(Required, Unread, true, true),
        Kind::While | Kind::Do => fields(Required, Unread, true, false),
        Kind::For => fields(Required, Required, true, false),
        Kind::BreakLoop | Kind::Return => fields(Optional, Unread, false, false),
        Kind::TryCatch => fields(Unread, Optional, true, true),
        Kind::Import => fields(Required, Optional, false, false),
    }
}

fn check_rows(image: &Image) -> Result<(), u8> {
    for row in &image.statements {
        let kind = Kind::from_number(row.kind).ok_or(4)?;
        require(row.flags <= 15, 4)?;
        check_row(image, row, &fields_of(kind))?;
    }
    require(image.expressions.iter().all(|e| e.kind <= 3), 4)
}

fn check_row(image: &Image, row: &StatementRow, fields: &Fields) -> Result<(), u8> {
    if fields.e != Need::Unread {
        let absent = row.e == ABSENT;
        require(!(absent && fields.e == Need::Required), 4)?;
        require(absent || usize::from(row.e) < image.expressions.len(), 4)?;
    }
    if fields.name != Need::Unread {
        require(row.name().is_some() || fields.name == Need::Optional, 4)?;
        require(fits(image, row.name()), 4)?;
    }
    if fields.second_name {
        require(fits(image, row.second_name()), 4)?;
    }
    let block_fits = |b: u16| b == ABSENT || usize::from(b) < image.blocks.len();
    require(!fields.p || block_fits(row.p), 4)?;
    require(!fields.q || block_fits(row.q), 4)
}

fn fits(image: &Image, name: Option<Place>) -> bool {
    name.map_or(true, |place| {
        (place.offset + place.length) as usize <= image.text.len()
    })
}

/// The blocks that a statement names, bodies of loops told apart.
fn named_blocks(row: &StatementRow) -> Vec<(u16, bool)> {
    let Some(kind) = Kind::from_number(row.kind) else {
        return Vec::new();
    };
    let fields = fields_of(kind);
    let is_loop = matches!(kind, Kind::While | Kind::Do | Kind::For);
    let mut named = Vec::new();
    if fields.p && row.p != ABSENT {
        named.push((row.p, is_loop));
    }
    if fields.q && row.q != ABSENT {
        named.push((row.q, false));
    }
    named
}

/// The block that names a block, and whether as the body of a loop.
#[derive(Clone, Copy)]
struct Parent {
    block: usize,
    as_loop_body: bool,
}

fn check_naming(image: &Image) -> Result<Vec<Option<Parent>>, u8> {
    let mut parents: Vec<Option<Parent>> = vec![None; image.blocks.len()];
    for block in 0..image.blocks.len() {
        for row in image.block(block as u16) {
            for (named, as_loop_body) in named_blocks(row) {
                let named = usize::from(named);
                require(named > block && parents[named].is_none(), 5)?;
                parents[named] = Some(Parent {
                    block,
                    as_loop_body,
                });
            }
        }
    }
    require(parents.iter().skip(1).all(Option::is_some), 5)?;
    Ok(parents)
}

fn check_nesting(image: &Image, parents: &[Option<Parent>]) -> Result<(), u8> {
    let mut depths = vec![1u32; image.blocks.len()];
    for (block, parent) in parents.iter().enumerate() {
        if let Some(parent) = parent {
            depths[block] = depths[parent.block] + 1;
        }
    }
    require(depths.iter().all(|&depth| depth <= MAX_NESTING), 6)
}

fn check_loops(image: &Image, parents: &[Option<Parent>]) -> Result<(), u8> {
    let mut in_loop = vec![false; image.blocks.len()];
    for block in 0..image.blocks.len() {
        if let Some(parent) = parents[block] {
            in_loop[block] = parent.as_loop_body || in_loop[parent.block];
        }
        let has_break = image
            .block(block as u16)
            .iter()
            .any(|row| row.kind == Kind::BreakLoop as u8);
        require(!has_break || in_loop[block], 7)?;
    }
    Ok(())
}

fn quote_block(image: &Image, block: u16) -> Option<u32> {
    image
        .block(block)
        .iter()
        .map(|row| quote_statement(image, row))
        .sum()
}

fn quote_statement(image: &Image, row: &StatementRow) -> Option<u32> {
    let p = || quote_block(image, row.p);
    let q = || quote_block(image, row.q);
    match Kind::from_number(row.kind)? {
        Kind::Noop => Some(1),
        Kind::Expr | Kind::Var | Kind::Import => Some(2),
        Kind::Assignment => Some(3),
        Kind::Return | Kind::BreakLoop => Some(1 + u32::from(row.expression().is_some())),
        Kind::Block => Some(1 + p()?),
        Kind::If => Some(2 + p()?.max(q()?)),
        Kind::TryCatch => Some(1 + p()? + q()?),
        Kind::While | Kind::Do | Kind::For => None,
    }
}
