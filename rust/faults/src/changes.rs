//! The faults, each as one change to one place of the judge's sources. Layout does not matter, words do.

/// One change.
pub struct Change {
    pub name: &'static str,
    pub module: &'static str,
    pub from: &'static str,
    pub to: &'static str,
}

const fn change(
    module: &'static str,
    name: &'static str,
    from: &'static str,
    to: &'static str,
) -> Change {
    Change {
        name,
        module,
        from,
        to,
    }
}

pub const CHANGES: &[Change] = &[
    // The order of refusals.
    change(
        "calls",
        "TX where the catalogue is bad",
        "Catalogue::read(catalogue).ok_or(Status::CX)?",
        "Catalogue::read(catalogue).ok_or(Status::TX)?",
    ),
    change(
        "lib",
        "the call number judged before the position",
        "let place = Position::read",
        "if Call::of_number(number).is_none() { return Err(Status::AD); } let place = Position::read",
    ),
    change(
        "calls",
        "the list judged before the call number",
        "let call = Call::of_number(number).ok_or(Status::AD)?;",
        "read_list(&self.catalogue, list)?; let call = Call::of_number(number).ok_or(Status::AD)?;",
    ),
    change(
        "calls",
        "the area looked at before list faults",
        "let list = read_list(&self.catalogue, list)?;",
        "if call != Call::Delete && area.len() < self.catalogue.longest() { return Err(Status::AB); }
         let list = read_list(&self.catalogue, list)?;",
    ),
    change(
        "calls",
        "the area looked at before AH and the other AJ",
        "self.judge_list(call, &list)?;",
        "if call != Call::Delete && area.len() < self.catalogue.longest() { return Err(Status::AB); }
         self.judge_list(call, &list)?;",
    ),
    change(
        "calls",
        "DJ before AB",
        "if call != Call::Delete && area.len()",
        "if call == Call::Replace && !position.hold { return Err(Status::DJ); }
         if call != Call::Delete && area.len()",
    ),
    change(
        "calls",
        "FX before GE",
        "let (last, above) = list.split_last()",
        "if self.forest.is_full() { return Err(Status::FX); }
         let (last, above) = list.split_last()",
    ),
    change(
        "calls",
        "FX before II",
        "if self.forest.has_rival",
        "if self.forest.is_full() { return Err(Status::FX); } if self.forest.has_rival",
    ),
    change(
        "arguments",
        "AK where the field number is missing",
        "let number = take_byte(rest).ok_or(Status::AJ)?;",
        "let number = take_byte(rest).ok_or(Status::AK)?;",
    ),
    change(
        "arguments",
        "a missing operator seen before the type",
        "let type_code = take_byte(rest).ok_or(Status::AC)?;",
        "let type_code = take_byte(rest).ok_or(Status::AC)?;
         if rest.is_empty() { return Err(Status::AJ); }",
    ),
    // Refusals that come where they should not, or not where they should.
    change(
        "calls",
        "AB looked at for DLET",
        "if call != Call::Delete && area.len()",
        "if area.len()",
    ),
    change(
        "calls",
        "an exact area refused",
        "area.len() < self.catalogue.longest()",
        "area.len() <= self.catalogue.longest()",
    ),
    change(
        "calls",
        "a list let through for REPL and DLET",
        "(Call::Replace | Call::Delete, Some(_)) => Err(Status::AJ),",
        "",
    ),
    change(
        "calls",
        "ISRT's last argument may be qualified",
        "(Call::Insert, Some(last)) if last.test.is_some() => Err(Status::AJ),",
        "",
    ),
    change(
        "calls",
        "call number 10 taken for DLET",
        "DLET => Some(Call::Delete),",
        "DLET | 10 => Some(Call::Delete),",
    ),
    change(
        "calls",
        "REPL may change a key",
        "if segment.data[key.clone()] != data[key]",
        "if false",
    ),
    change(
        "calls",
        "REPL may change nothing at all",
        "if segment.data[key.clone()] != data[key]",
        "if segment.data != data",
    ),
    change(
        "forest",
        "a multiple key may not have equals",
        "catalogue.of(segment.type_code).kind == KeyKind::Unique &&",
        "catalogue.of(segment.type_code).kind != KeyKind::None &&",
    ),
    change(
        "forest",
        "FX one cell early",
        "self.count() == self.capacity",
        "self.count() + 1 >= self.capacity",
    ),
    change(
        "lib",
        "a refusal drops the hold",
        "removed: 0, position: position.to_vec(),",
        "removed: 0, position: position.iter().enumerate()
         .map(|(index, &byte)| if index == 6 { 0 } else { byte }).collect(),",
    ),
    change(
        "lib",
        "the maker answers TX where the catalogue is bad",
        "Catalogue::read(catalogue).ok_or(Status::CX)?",
        "Catalogue::read(catalogue).ok_or(Status::TX)?",
    ),
    // Blocks.
    change(
        "catalogue",
        "33 types accepted",
        "(1..=32).contains(&type_count)",
        "(1..=33).contains(&type_count)",
    ),
    change(
        "catalogue",
        "65 fields accepted",
        "field_count <= 64",
        "field_count <= 65",
    ),
    change(
        "catalogue",
        "level 16 accepted",
        "DEEPEST_LEVEL: usize = 15",
        "DEEPEST_LEVEL: usize = 16",
    ),
    change(
        "catalogue",
        "length 121 accepted",
        "(1..=120).contains(&length)",
        "(1..=121).contains(&length)",
    ),
    change("catalogue", "byte 7 not tested", "&& header[7] == 0", ""),
    change(
        "catalogue",
        "two zero bytes not tested",
        "|| entry[5..7] != [0, 0]",
        "",
    ),
    change(
        "catalogue",
        "a field's value type above 1 accepted",
        "value: value_type(entry[3], &bytes)?",
        "value: value_type(entry[3] & 1, &bytes)?",
    ),
    change(
        "catalogue",
        "a key start without a key accepted",
        "(KeyKind::None, 0, 0) => 0..0, (KeyKind::None, _, _) => return None,",
        "(KeyKind::None, _, _) => 0..0,",
    ),
    change(
        "catalogue",
        "start and length wrap",
        "let end = first + usize::from(length);",
        "let end = first.max(usize::from((first as u8).wrapping_add(length)));",
    ),
    change(
        "catalogue",
        "any earlier type as parent",
        "let depth = previous.lineage.iter().position(|&above| above == parent)?;
         previous.lineage[..=depth].to_vec()",
        "self.segment_type(parent)?.lineage.clone()",
    ),
    change(
        "forest",
        "4,097 cells accepted",
        "MOST_CELLS: usize = 4096",
        "MOST_CELLS: usize = 4097",
    ),
    change(
        "forest",
        "4,096 cells refused",
        "MOST_CELLS: usize = 4096",
        "MOST_CELLS: usize = 4095",
    ),
    change(
        "forest",
        "the table's version not tested",
        "header.starts_with(MARK)",
        "header.starts_with(&MARK[..3])",
    ),
    change(
        "forest",
        "padding not tested",
        "all_zero(padding).then_some(segment)",
        "Some(segment)",
    ),
    change(
        "forest",
        "free cells not tested",
        "all_zero(free).then_some(forest)",
        "Some(forest)",
    ),
    change(
        "forest",
        "groups in any order",
        "return last.type_code < next.type_code;",
        "return true;",
    ),
    change(
        "forest",
        "unique keys may be equal",
        "KeyKind::Unique => lesser < greater,",
        "KeyKind::Unique => lesser <= greater,",
    ),
    change(
        "forest",
        "multiple keys must differ",
        "KeyKind::Multiple => lesser <= greater,",
        "KeyKind::Multiple => lesser < greater,",
    ),
    change(
        "forest",
        "the parent's type not tested",
        "if open.type_code != above { return None; }",
        "",
    ),
    // The position.
    change(
        "position",
        "a hold in a gap accepted",
        "&& (hold == 0 || matches!(place, Place::On(_)))",
        "",
    ),
    change(
        "position",
        "the gap behind the parent's run refused",
        "|| *path == forest.after_run(above)",
        "",
    ),
    change(
        "position",
        "the parentage not tested on a cell",
        "Place::On(path) => path.starts_with(above),",
        "Place::On(_) => true,",
    ),
    change(
        "position",
        "the parentage of a cell must be above it",
        "Place::On(path) => path.starts_with(above),",
        "Place::On(path) => is_beneath(path, above),",
    ),
    change("position", "the last byte not tested", "&& zero == 0", ""),
    change(
        "position",
        "an absent parentage may have a number",
        "(0, 0) => None,",
        "(0, _) => None,",
    ),
    change(
        "position",
        "the gap behind the last cell refused",
        "0 if cell == forest.count() => Some(Place::Before(None)),",
        "0 if cell == forest.count() && cell == 0 => Some(Place::Before(None)),",
    ),
    // Lists.
    change(
        "catalogue",
        "a type counts as beneath itself",
        "lower != upper && self.of(lower)",
        "self.of(lower)",
    ),
    change(
        "arguments",
        "bytes compared with their sign",
        "field.is_some_and(|field| self.operator.accepts(field.cmp(&self.value)))",
        "let signed = |value| match value {
             Value::Bytes(bytes) => (bytes.iter().map(|&byte| byte as i8).collect::<Vec<_>>(), 0),
             Value::Number(number) => (Vec::new(), number),
         };
         field.is_some_and(|field| self.operator.accepts(signed(field).cmp(&signed(self.value))))",
    ),
    change(
        "arguments",
        "the field stands right of the operator",
        "field.cmp(&self.value)",
        "self.value.cmp(&field)",
    ),
    change(
        "arguments",
        "at most is less than",
        "Operator::LessOrEqual => order != Ordering::Greater,",
        "Operator::LessOrEqual => order == Ordering::Less,",
    ),
    change(
        "arguments",
        "a field of another type accepted",
        ".filter(|field| field.type_code == type_code)",
        ".filter(|field| field.bytes.end <= catalogue.of(type_code).length)",
    ),
    change(
        "arguments",
        "only the last argument is tested",
        "&& branch.iter().all(",
        "&& branch[branch.len() - 1..].iter().all(",
    ),
    // Along the position.
    change(
        "calls",
        "implied levels taken from the start of the table",
        "let kept = self.kept(place, levels);",
        "let kept = Path::new();",
    ),
    change(
        "calls",
        "the last implied level not kept",
        ".map_or(0, |last| last + 1)",
        ".unwrap_or(0)",
    ),
    change(
        "calls",
        "the whole stretch kept",
        "path[..kept].to_vec()",
        "path[..if kept > 0 { stretch } else { 0 }].to_vec()",
    ),
    change(
        "calls",
        "a second try from the start",
        "self.seek(kept, rest)",
        "self.seek(kept, rest).or_else(|| self.seek(Path::new(), levels))",
    ),
    change(
        "arguments",
        "a level named without a test counts as implied",
        "self.argument.is_none() }",
        "self.argument.is_none_or(|argument| argument.test.is_none()) }",
    ),
    // Gets.
    change(
        "calls",
        "GNP running on behind its parent",
        "if above.is_some_and(|above| !is_beneath(&path, above)) { return None; }",
        "",
    ),
    change(
        "calls",
        "GN from a gap passes over the cell behind it",
        "Place::Before(path) => path.clone(),",
        "Place::Before(path) => path.as_ref().and_then(|path| self.forest.next(path)),",
    ),
    change(
        "calls",
        "GA and GK swapped",
        "Status::GA } else if found.len() == path.len() && from.type_code != to.type_code { Status::GK }",
        "Status::GK } else if found.len() == path.len() && from.type_code != to.type_code { Status::GA }",
    ),
    change(
        "calls",
        "GA and GK with a list too",
        "if scope != Scope::Unique && list.is_empty()",
        "if scope != Scope::Unique",
    ),
    change(
        "calls",
        "GA and GK for GN only",
        "if scope != Scope::Unique && list.is_empty()",
        "if scope == Scope::Next && list.is_empty()",
    ),
    change(
        "calls",
        "GB for GNP",
        "let at_end = scope == Scope::Next &&",
        "let at_end = scope != Scope::Unique &&",
    ),
    change(
        "calls",
        "GE instead of GB",
        "let at_end = scope == Scope::Next && list.is_empty();",
        "let at_end = false;",
    ),
    change(
        "calls",
        "a hold that survives a miss",
        "subject: None, removed: 0, position: position.without_hold(),",
        "subject: None, removed: 0, position,",
    ),
    change(
        "calls",
        "GB keeps the place",
        "if at_end { self.ran_out() } else { nothing(Status::GE, position) }",
        "nothing(if at_end { Status::GB } else { Status::GE }, position)",
    ),
    change(
        "calls",
        "GB keeps the parentage",
        "if at_end { self.ran_out() }",
        "if at_end { let mut answer = self.ran_out(); answer.position.parentage = position.parentage; answer }",
    ),
    change(
        "calls",
        "GB keeps the hold",
        "if at_end { self.ran_out() }",
        "if at_end { let mut answer = self.ran_out(); answer.position.hold = position.hold; answer }",
    ),
    change(
        "calls",
        "GB goes to the end instead of the start",
        "position: Position::fresh(&self.forest),",
        "position: Position { place: Place::Before(None), parentage: None, hold: false },",
    ),
    change(
        "calls",
        "GB goes to the first root itself",
        "position: Position::fresh(&self.forest),",
        "position: Position { place: self.forest.first().map_or(Place::Before(None), Place::On), parentage: None, hold: false },",
    ),
    change(
        "calls",
        "GE makes the position fresh",
        "nothing(Status::GE, position) };",
        "nothing(Status::GE, Position::fresh(&self.forest)) };",
    ),
    change(
        "calls",
        "GP makes the position fresh",
        "return nothing(Status::GP, position),",
        "return nothing(Status::GP, Position::fresh(&self.forest)),",
    ),
    change(
        "calls",
        "GNP starts over too",
        "let at_end = scope == Scope::Next && list.is_empty(); return if at_end {",
        "let over = Position::fresh(&self.forest); let at_end = scope == Scope::Next && list.is_empty(); \
         return if scope == Scope::NextWithinParent && list.is_empty() { nothing(Status::GE, over) } else if at_end {",
    ),
    change(
        "calls",
        "GHN sets no hold",
        "GHN => get(Scope::Next, true),",
        "GHN => get(Scope::Next, false),",
    ),
    change(
        "calls",
        "GNP sets the parentage",
        "let parentage = if scope == Scope::NextWithinParent {",
        "let parentage = if false {",
    ),
    change(
        "calls",
        "GN leaves the parentage",
        "let parentage = if scope == Scope::NextWithinParent {",
        "let parentage = if scope != Scope::Unique {",
    ),
    change(
        "lib",
        "the rest of the area cleared",
        "let mut bytes = slice.to_vec();",
        "let mut bytes = vec![0; slice.len()];",
    ),
    // ISRT, REPL, DLET.
    change(
        "forest",
        "a multiple key put before its equals",
        "other.key(catalogue) > new.key(catalogue)",
        "other.key(catalogue) >= new.key(catalogue)",
    ),
    change(
        "forest",
        "an unkeyed segment put first",
        "catalogue.of(new.type_code).kind != KeyKind::None &&",
        "catalogue.of(new.type_code).kind == KeyKind::None ||",
    ),
    change(
        "forest",
        "a new segment put behind groups of higher code",
        "return other.type_code > new.type_code;",
        "return false;",
    ),
    change(
        "calls",
        "ISRT keeps the hold",
        "place: Place::On(path), hold: false,",
        "place: Place::On(path), hold: position.hold,",
    ),
    change(
        "calls",
        "ISRT drops the parentage",
        "position: Position { parentage: position.parentage.filter(|above| is_beneath(&path, above)),",
        "position: Position { parentage: None,",
    ),
    change(
        "calls",
        "ISRT sets the parentage as GU does",
        "position: Position { parentage: position.parentage.filter(|above| is_beneath(&path, above)),",
        "position: Position { parentage: Some(path.clone()),",
    ),
    change(
        "calls",
        "REPL keeps the hold",
        "subject: Some(self.subject(&path)), removed: 0, position: position.without_hold(),",
        "subject: Some(self.subject(&path)), removed: 0, position,",
    ),
    change(
        "calls",
        "the place after DLET on the cell behind the run",
        "place: Place::Before(self.forest.at_or_after(&path)),",
        "place: self.forest.at_or_after(&path).map_or(Place::Before(None), Place::On),",
    ),
    change(
        "calls",
        "DLET drops every parentage",
        "place: Place::Before(self.forest.at_or_after(&path)),
         parentage: position.parentage.filter(|above| is_beneath(&path, above)),",
        "place: Place::Before(self.forest.at_or_after(&path)), parentage: None,",
    ),
    change(
        "calls",
        "removed counts children only",
        "let removed = self.forest.remove(&path).size();",
        "let removed = self.forest.remove(&path).size() - 1;",
    ),
    change(
        "calls",
        "the level counted from 0",
        "level: path.len(),",
        "level: path.len() - 1,",
    ),
    // Reports.
    change(
        "lib",
        "a report refuses an exact out",
        "if bytes.len() > out.len()",
        "if bytes.len() >= out.len()",
    ),
    change(
        "reports",
        "the nested report forgets its first segment",
        "let outer = database.get(position, Scope::Next, false, upper);",
        "let outer = database.get(position, Scope::Next, false, upper);
         if outer.subject.is_some() && outer.position.place == Place::On(vec![0]) { position = outer.position; continue; }",
    ),
    change(
        "reports",
        "the nested report runs on into the next parent's dependents",
        "position = gather( database, outer.position, Scope::NextWithinParent, lower, &mut hits, );",
        "position = gather( database, outer.position, Scope::Next, lower, &mut hits, );",
    ),
    change(
        "reports",
        "the joined report forgets list 1",
        "Way::Joined => joined_hits(&database, &arguments),",
        "Way::Joined => joined_hits(&database, lower),",
    ),
    change(
        "reports",
        "list 2 need not lie beneath list 1",
        "read_list_beneath(catalogue, Some(last.type_code), list2)",
        "read_list_beneath(catalogue, None, list2)",
    ),
    change(
        "reports",
        "a report's list 1 is made up for by list 2",
        "let mut arguments = read_list(&database.catalogue, list1)?;",
        "let both = [list1, list2].concat(); read_list(&database.catalogue, &both)?;
         let mut arguments = read_list(&database.catalogue, list1)?;",
    ),
    change(
        "reports",
        "an empty list 2 seen before the faults of list 1",
        "let mut arguments = read_list(&database.catalogue, list1)?;",
        "if list2.is_empty() { return Err(Status::AC); }
         let mut arguments = read_list(&database.catalogue, list1)?;",
    ),
    change(
        "reports",
        "an empty list 1 seen after the faults of list 2",
        "let Some(last) = upper.last() else {",
        "let Some(last) = upper.last() else { read_list(catalogue, list2)?;",
    ),
    change(
        "reports",
        "a report with an empty list 2 shows list 1",
        "if list2.is_empty() { return Err(Status::AC); }",
        "",
    ),
    change(
        "lib",
        "a report's cell numbers low byte first",
        ".flat_map(|&cell| (cell as u16).to_be_bytes())",
        ".flat_map(|&cell| (cell as u16).to_le_bytes())",
    ),
    // Packed values.
    change(
        "values",
        "packed values in the order of their bytes",
        "ValueType::Packed => packed(bytes).map(Value::Number),",
        "ValueType::Packed => packed(bytes).map(|_| Value::Bytes(bytes)),",
    ),
    change(
        "values",
        "numbers below zero ascend with their digits",
        "Some(sign * halves.iter().try_fold(0, append)?)",
        "let digits = halves.iter().try_fold(0, append)?;
         Some(if sign < 0 && digits > 0 { digits - 10i128.pow(32) } else { digits })",
    ),
    change(
        "values",
        "two zeros",
        "Some(sign * halves.iter().try_fold(0, append)?)",
        "Some(sign * (2 * halves.iter().try_fold(0, append)? + 1))",
    ),
    change(
        "values",
        "digits beyond 64 bits lost",
        "Some(sign * halves.iter().try_fold(0, append)?)",
        "Some(sign * i128::from(halves.iter().try_fold(0, append)? as u64))",
    ),
    change(
        "values",
        "sign A for minus",
        "0xA | 0xC | 0xE | 0xF => 1, 0xB | 0xD => -1,",
        "0xC | 0xE | 0xF => 1, 0xA | 0xB | 0xD => -1,",
    ),
    change(
        "values",
        "sign B for plus",
        "0xA | 0xC | 0xE | 0xF => 1, 0xB | 0xD => -1,",
        "0xA | 0xB | 0xC | 0xE | 0xF => 1, 0xD => -1,",
    ),
    change(
        "values",
        "sign E for none",
        "0xA | 0xC | 0xE | 0xF => 1,",
        "0xA | 0xC | 0xF => 1,",
    ),
    change(
        "values",
        "half byte 9 for a sign",
        "0xA | 0xC | 0xE | 0xF => 1,",
        "9 | 0xA | 0xC | 0xE | 0xF => 1,",
    ),
    change("values", "half byte A for a digit", "half <= 9", "half <= 10"),
    change(
        "catalogue",
        "a key's value type above 1 accepted",
        "value_type(entry[7], &key)?",
        "value_type(entry[7] & 1, &key)?",
    ),
    change(
        "catalogue",
        "a packed key of 17 bytes accepted",
        "LONGEST_PACKED: usize = 16",
        "LONGEST_PACKED: usize = 17",
    ),
    change(
        "catalogue",
        "a packed key of 16 bytes refused",
        "LONGEST_PACKED: usize = 16",
        "LONGEST_PACKED: usize = 15",
    ),
    change(
        "catalogue",
        "a packed key that is none accepted",
        "if kind == KeyKind::None && key_value != ValueType::Bytes { return None; }",
        "",
    ),
    change(
        "catalogue",
        "a field over the key has the key's value type",
        "value: value_type(entry[3], &bytes)?,",
        "value: value_type(entry[3], &bytes).map(|own| if bytes == owner.key { owner.key_value } else { own })?,",
    ),
    change(
        "forest",
        "a stored key that is no number seen beside a twin only",
        "segment.key(catalogue)?;",
        "",
    ),
    change(
        "forest",
        "twins in the order of their keys' bytes",
        "let (lesser, greater) = (last.key(catalogue), next.key(catalogue));",
        "let span = catalogue.of(next.type_code).key.clone();
         let (lesser, greater) = (&last.data[span.clone()], &next.data[span]);",
    ),
    change(
        "forest",
        "II for a key of the same bytes",
        "twin.type_code == segment.type_code && twin.key(catalogue) == segment.key(catalogue)",
        "let span = catalogue.of(segment.type_code).key.clone();
         twin.type_code == segment.type_code && twin.data[span.clone()] == segment.data[span]",
    ),
    change(
        "forest",
        "a new segment put in the order of bytes",
        "&& other.key(catalogue) > new.key(catalogue)",
        "&& other.data[catalogue.of(new.type_code).key.clone()] > new.data[catalogue.of(new.type_code).key.clone()]",
    ),
    change(
        "arguments",
        "a field that holds no number is unequal to all",
        "field.is_some_and(|field| self.operator.accepts(field.cmp(&self.value)))",
        "field.map_or(self.operator == Operator::NotEqual, |field| self.operator.accepts(field.cmp(&self.value)))",
    ),
    change(
        "arguments",
        "a packed value that is no number taken for 0",
        "field.value.value_of(value).ok_or(Status::AJ)?",
        "field.value.value_of(value).unwrap_or(Value::Number(0))",
    ),
    change(
        "arguments",
        "AK for a packed value that is no number",
        "field.value.value_of(value).ok_or(Status::AJ)?",
        "field.value.value_of(value).ok_or(Status::AK)?",
    ),
    change(
        "arguments",
        "a packed value judged before its field's type",
        "let number = take_byte(rest).ok_or(Status::AJ)?;",
        "let number = take_byte(rest).ok_or(Status::AJ)?;
         let value = catalogue.field(number).and_then(|field| Some((field.value, rest.get(..field.bytes.len())?)));
         if value.is_some_and(|(own, bytes)| own.value_of(bytes).is_none()) { return Err(Status::AJ); }",
    ),
    change(
        "arguments",
        "a packed value judged behind the arguments that follow",
        "field.value.value_of(value).ok_or(Status::AJ)?",
        "match field.value.value_of(value) {
             Some(value) => value,
             None => return read_list_beneath(catalogue, Some(type_code), behind).and(Err(Status::AJ)),
         }",
    ),
    change(
        "calls",
        "PD before GE",
        "let Some(parent) = parent else {",
        "if Segment::new(last.type_code, &area[..segment_type.length]).key(&self.catalogue).is_none() { return Err(Status::PD); }
         let Some(parent) = parent else {",
    ),
    change(
        "calls",
        "FX before PD",
        "if segment.key(&self.catalogue).is_none()",
        "if self.forest.is_full() && !self.forest.has_rival(&self.catalogue, &parent, &segment) { return Err(Status::FX); }
         if segment.key(&self.catalogue).is_none()",
    ),
    change(
        "calls",
        "II where the key is no number",
        "return Err(Status::PD);",
        "return Err(Status::II);",
    ),
    change(
        "calls",
        "a key that is no number let in",
        "if segment.key(&self.catalogue).is_none() { return Err(Status::PD); }",
        "",
    ),
    change(
        "calls",
        "DA for a key of another value",
        "if segment.data[key.clone()] != data[key]",
        "if segment.key(&self.catalogue) != Segment::new(segment.type_code, data).key(&self.catalogue)",
    ),
    // DBD statements: lines and words.
    change(
        "dbd",
        "lines counted from 0",
        "let mut line = 1;",
        "let mut line = 0;",
    ),
    change(
        "dbd",
        "the end told as the last line",
        "kind: STATEMENT, line, });",
        "kind: STATEMENT, line: line - 1, });",
    ),
    change(
        "dbd",
        "a line behind the last LF, though it is empty",
        "lines.pop();",
        "",
    ),
    change("dbd", "a tab that is no blank", "' ', '\\t',", "' ', ' ',"),
    change("dbd", "a CR that is no blank", "'\\t', '\\r'", "'\\t', '\\t'"),
    change("dbd", "a name of nine bytes", "word.len() <= 8", "word.len() <= 9"),
    change(
        "dbd",
        "a name that begins with a digit",
        "first.is_ascii_alphabetic()",
        "first.is_ascii_alphanumeric()",
    ),
    change(
        "dbd",
        "a great number refused as no number",
        "digits.then(|| word.parse().unwrap_or(u64::MAX / 4))",
        "if digits { word.parse().ok() } else { None }",
    ),
    // Their forms.
    change("dbd", "a keyword in small letters", r#"["DBD","#, r#"["DBD" | "dbd","#),
    change("dbd", "TYPE=P taken", r#""C" | "X""#, r#""C" | "X" | "P""#),
    change("dbd", "PARENT=00 for the root", r#""0" => None"#, r#""0" | "00" => None"#),
    change("dbd", "U and M exchanged", r#""U" => 1, "M" => 2"#, r#""U" => 2, "M" => 1"#),
    // What a line may say, and the order of its faults.
    change("dbd", "a second DBD", "if self.base.is_some()", "if false"),
    change("dbd", "no DBD asked for", "self.base.is_none() ||", "false ||"),
    change(
        "dbd",
        "a second root told as CX",
        "|| (above.is_none() && !self.segments.is_empty())",
        "",
    ),
    change(
        "dbd",
        "a second key",
        "if kind.is_some() && segment.key.is_some()",
        "if false",
    ),
    change(
        "dbd",
        "a second key told behind its name",
        "if kind.is_some() && segment.key.is_some() { return Err(STATEMENT); }
         let twice = |other: &Field| other.owner == owner && other.name == name;
         if self.fields.iter().any(twice) { return Err(NAME); }",
        "let twice = |other: &Field| other.owner == owner && other.name == name;
         if self.fields.iter().any(twice) { return Err(NAME); }
         if kind.is_some() && segment.key.is_some() { return Err(STATEMENT); }",
    ),
    change(
        "dbd",
        "the parent looked for before the name",
        "if self.segments.iter().any(|other| other.name == name)",
        "if above.iter().any(|named| self.segments.iter().all(|other| other.name != *named)) { return Err(PARENT); }
         if self.segments.iter().any(|other| other.name == name)",
    ),
    change(
        "dbd",
        "segments named alike but for small letters",
        "|other| other.name == name)",
        "|other| other.name.eq_ignore_ascii_case(&name))",
    ),
    change(
        "dbd",
        "fields of two segments may not share a name",
        "other.owner == owner && other.name == name",
        "other.name == name",
    ),
    change("dbd", "an unknown parent told as CX", "place.ok_or(PARENT)?", "place.ok_or(RULE)?"),
    change(
        "dbd",
        "the key of the first segment",
        "self.segments.last_mut()",
        "self.segments.first_mut()",
    ),
    change("dbd", "33 segments", "self.segments.len() == 32", "self.segments.len() == 33"),
    change("dbd", "65 fields", "self.fields.len() == 64", "self.fields.len() == 65"),
    change("dbd", "level 16", "level > 15", "level > 16"),
    change("dbd", "121 bytes", "(1..=120)", "(1..=121)"),
    change("dbd", "a field from byte 0", "start >= 1 &&", ""),
    change(
        "dbd",
        "a field one byte too long",
        "start + length - 1 <= segment.length",
        "start + length - 2 <= segment.length",
    ),
    change("dbd", "any earlier segment as a parent", "|| !open ||", "||"),
    // What the reader and the writer hand out.
    change("dbd", "a key of other bytes", "(kind, start, length))", "(kind, start, 1))"),
    change(
        "dbd",
        "the catalogue written though there is no room for the names",
        "if cat.len() < pair.catalogue.len() || names.len()",
        "if cat.len() < pair.catalogue.len() { return 28; }
         cat[..pair.catalogue.len()].copy_from_slice(&pair.catalogue); if names.len()",
    ),
    change(
        "dbd",
        "something written before a fault",
        "Err(fault) => return",
        "Err(fault) if cat.first_mut().map(|byte| *byte = b'H').is_some() && false => return 0, Err(fault) => return",
    ),
    change(
        "dbd",
        "SEQ on a field of another length",
        "if span == field[1..3]",
        "if span[0] == field[1]",
    ),
    change("dbd", "TYPE=X written", "TYPE=C", "TYPE=X"),
    change("dbd", "fields in any order", "if !ascend ||", "if"),
    change("dbd", "a packed key written", "if packed ||", "if"),
    change(
        "dbd",
        "a packed field written",
        "if packed || entries.iter().any(|entry| entry[3] != 0)",
        "if packed",
    ),
    change("dbd", "a key that no field has", "if key.is_some() { return None; }", ""),
    change(
        "dbd",
        "two fields of one name",
        "if has_twice(entries.iter().map(|entry| entry[0]).zip(fields)) { return None; }",
        "",
    ),
    change("dbd", "a list with a byte too many", "rest.len() != 8 *", "rest.len() < 8 *"),
    change("dbd", "a name behind spaces", "trim_end_matches(' ')", "trim_matches(' ')"),
    change("dbd", "a text of other length", "<< 32 }", "<< 33 }"),
];
