//! Wrong answers about records totals are found by the comparison.

mod parts;

use parts::{are_found, are_found_by, compared};
use second::compare::{full_totals, records_totals, Agreed, Compare};
use second::judge::{verdict, verdict_by, Outcome, Verdict};
use second::layout::{h, m, records_total, Kind, KINDS, RECORD, STRUCTURED, UNSTRUCTURED};
use second::product::{Product, RawValue, Second};
use second::records::Refusal;
use second::sums::{answer, answer_for_all, Sums};
use second::walk::{record, Found, Layer, Mesh};

/// This program with one call made wrong: "call: what is wrong".
struct Wrong(&'static str);

impl Wrong {
    /// What is wrong about a call, if it is this one.
    fn about(&self, call: &str) -> Option<&'static str> {
        self.0.strip_prefix(call)?.strip_prefix(": ")
    }
}

// Totals that a wrong judge takes or does not take.

/// A mesh and its place in the file, from 0.
#[derive(Clone, Copy)]
struct Here<'a> {
    found: &'a Found,
    mesh: &'a Mesh,
    place: usize,
}

impl Here<'_> {
    fn told(&self) -> i64 {
        i64::from(self.mesh.told[3])
    }

    fn is_last(&self) -> bool {
        self.place + 1 == self.found.meshes.len()
    }

    /// The H records that are so.
    fn heads(&self, are: impl Fn(&Layer) -> bool) -> i64 {
        self.mesh.layers.iter().filter(|layer| are(layer)).count() as i64
    }

    /// Its M and all its H count themselves as well.
    fn is_old(&self) -> bool {
        self.told() == behind(self.mesh) + 1 && self.mesh.layers.iter().all(|layer| told(layer) == behind_h(layer) + 1)
    }
}

fn behind(mesh: &Mesh) -> i64 {
    i64::from(mesh.behind)
}

fn behind_h(layer: &Layer) -> i64 {
    i64::from(layer.behind)
}

fn told(layer: &Layer) -> i64 {
    i64::from(layer.told_records)
}

/// The coordinate records of a layer, and its loop records.
fn coordinates(layer: &Layer) -> i64 {
    layer.lines.iter().map(|line| line.points.len().div_ceil(7) as i64).sum()
}

fn loops(layer: &Layer) -> i64 {
    layer.areas.iter().flat_map(|area| &area.loops).map(|one| one.entries.len().div_ceil(12) as i64).sum()
}

/// Whether a wrong judge takes the total of an M.
fn takes_m(wrong: &str, here: Here) -> bool {
    let Here { found, mesh, place } = here;
    let (told, right) = (here.told(), behind(mesh));
    let is = |counted: i64| told == counted;
    let itself = |yes: bool| is(right + i64::from(yes));
    let layers = &mesh.layers;
    let (one, first, last) = (layers.len() == 1, &layers[0], &layers[layers.len() - 1]);
    let any = |so: fn(&Layer) -> bool| layers.iter().any(so);
    let sum: i64 = layers.iter().map(self::told).sum();
    let all_records = i64::from(found.records);
    match wrong {
        "M counts itself" | "both count themselves" => itself(true),
        "M may count itself" | "both may count themselves" | "as its M counts" => is(right) || itself(true),
        "a file may be old" => is(right) || itself(true) && is_old(found),
        "a mesh may be old" => is(right) || here.is_old(),
        "as the first M counts" => itself(found.meshes[0].told[3] as u32 == found.meshes[0].behind + 1),
        "as its H counts" => itself(self::told(first) == behind_h(first) + 1),
        "M of one layer counts itself" => itself(one),
        "M of two layers counts itself" => itself(!one),
        "the first M counts itself" => itself(place == 0),
        "a later M counts itself" => itself(place > 0),
        "the last M counts itself" => itself(here.is_last()),
        "an M before another counts itself" => itself(!here.is_last()),
        "M over H1 counts itself" => itself(any(|layer| layer.letters == UNSTRUCTURED)),
        "M over H2 counts itself" => itself(any(|layer| layer.letters == STRUCTURED)),
        "M over H1 and H2 counts itself" => itself(first.letters != last.letters),
        "M over layer 1 counts itself" => itself(first.code == 1),
        "M over layer 5 counts itself" => itself(last.code == 5),
        "M over an H alone counts itself" => itself(any(|layer| layer.behind == 0)),
        "M over two H alone counts itself" => itself(!one && layers.iter().all(|layer| layer.behind == 0)),
        "M over areas counts itself" => itself(any(|layer| !layer.areas.is_empty())),
        "M over no areas counts itself" => itself(!any(|layer| !layer.areas.is_empty())),
        "M counts no H" => is(right - here.heads(|_| true)),
        "M counts one H" => is(right - here.heads(|_| true) + 1),
        "M counts no H1" => is(right - here.heads(|layer| layer.letters == UNSTRUCTURED)),
        "M counts no H2" => is(right - here.heads(|layer| layer.letters == STRUCTURED)),
        "M counts no H alone" => is(right - here.heads(|layer| layer.behind == 0)),
        "M counts no H but those alone" => is(right - here.heads(|layer| layer.behind != 0)),
        "M counts each H twice" => is(right + here.heads(|_| true)),
        "M counts itself and no H" => is(right + 1 - here.heads(|_| true)),
        "M counts H where it has one layer" => is(right - if one { 0 } else { 2 }),
        "M counts its first layer" => is(1 + behind_h(first)),
        "M counts its last layer" => is(1 + behind_h(last)),
        "M counts its first layer and itself" => is(2 + behind_h(first)),
        "M sums what its H tell" => is(sum),
        "M sums what its H tell, and each H" => is(sum + layers.len() as i64),
        "M sums what its H tell, and itself" => is(sum + 1),
        "M counts no coordinates" => is(right - layers.iter().map(coordinates).sum::<i64>()),
        "M counts no loops" => is(right - layers.iter().map(loops).sum::<i64>()),
        "M counts no nodes" => is(right - layers.iter().map(|layer| layer.nodes.len() as i64).sum::<i64>()),
        "M counts to the file's end" => is(all_records - i64::from(mesh.record)),
        "M counts from the file's start" => is(i64::from(mesh.record) - 1 + right),
        "M counts the meshes before" => is(right + place as i64),
        "M tells no more than it has" => told <= right,
        "M tells no fewer than it has" => told >= right,
        "M tells one fewer or what it has" => is(right) || is(right - 1),
        "M tells one off" => (told - right).abs() == 1,
        "M is not judged" => true,
        "M of one layer is not judged" => one || is(right),
        "M of two layers is not judged" => !one || is(right),
        "M over an H alone is not judged" => any(|layer| layer.behind == 0) || is(right),
        "M over H1 is not judged" => any(|layer| layer.letters == UNSTRUCTURED) || is(right),
        "later meshes are not judged" => place > 0 || is(right),
        "the last mesh is not judged" => here.is_last() || is(right),
        "the first mesh is not judged" => place == 0 || is(right),
        "0 of an M is not judged" | "0 is not judged" => told == 0 || is(right),
        "M by its last two digits" => told % 100 == right % 100,
        "M by a byte" => told % 256 == right % 256,
        "M by four digits" => told % 10_000 == right % 10_000,
        "M by half a word" => told % 65_536 == right % 65_536,
        "M tells at most 99,999" => is(right.min(99_999)),
        "M tells five digits" | "both tell five digits" => is(right % 100_000),
        "M counts in half a word" => is(right % 65_536),
        "M counts in half a word with a sign" => is(right) && right < 32_768,
        "M has at most 99,999 records" => is(right) && right < 99_999,
        _ => is(right),
    }
}

/// Whether a wrong judge takes the total of an H, by its place in its mesh.
fn takes_h(wrong: &str, here: Here, number: usize) -> bool {
    let Here { found, mesh, place } = here;
    let layer = &mesh.layers[number];
    let (told, right) = (told(layer), behind_h(layer));
    let is = |counted: i64| told == counted;
    let itself = |yes: bool| is(right + i64::from(yes));
    let (one, last) = (mesh.layers.len() == 1, number + 1 == mesh.layers.len());
    let alone = right == 0;
    let mesh_ends = i64::from(mesh.record) + behind(mesh);
    match wrong {
        "H counts itself" | "both count themselves" => itself(true),
        "H may count itself" | "both may count themselves" => is(right) || itself(true),
        "a file may be old" => is(right) || itself(true) && is_old(found),
        "a mesh may be old" => is(right) || here.is_old(),
        "as the first M counts" => itself(found.meshes[0].told[3] as u32 == found.meshes[0].behind + 1),
        "as its M counts" => itself(here.told() == behind(mesh) + 1),
        "as the first H counts" => itself(self::told(&mesh.layers[0]) == behind_h(&mesh.layers[0]) + 1),
        "H1 counts itself" => itself(layer.letters == UNSTRUCTURED),
        "H2 counts itself" => itself(layer.letters == STRUCTURED),
        "H of layer 1 counts itself" => itself(layer.code == 1),
        "H of layer 5 counts itself" => itself(layer.code == 5),
        "the first H of a mesh counts itself" => itself(number == 0),
        "the second H of a mesh counts itself" => itself(number == 1),
        "the only H of a mesh counts itself" => itself(one),
        "an H beside another counts itself" => itself(!one),
        "the first of two H counts itself" => itself(!one && number == 0),
        "an H alone counts itself" => itself(alone),
        "an H1 alone counts itself" => itself(alone && layer.letters == UNSTRUCTURED),
        "an H2 alone counts itself" => itself(alone && layer.letters == STRUCTURED),
        "a second H alone counts itself" => itself(alone && number == 1),
        "an H that is not alone counts itself" => itself(!alone),
        "an H with areas counts itself" => itself(!layer.areas.is_empty()),
        "an H without areas counts itself" => itself(layer.areas.is_empty()),
        "an H in the first mesh counts itself" => itself(place == 0),
        "an H in a later mesh counts itself" => itself(place > 0),
        "an H alone tells 0 or 1" => is(right) || itself(alone),
        "an H alone is not judged" => alone || is(right),
        "an H alone is refused" => is(right) && !alone,
        "an H1 alone is refused" => is(right) && !(alone && layer.letters == UNSTRUCTURED),
        "an H2 alone is refused" => is(right) && !(alone && layer.letters == STRUCTURED),
        "0 of an H is not judged" | "0 is not judged" => told == 0 || is(right),
        "H counts nodes, lines and areas" => is(right - coordinates(layer) - loops(layer)),
        "H counts no coordinates" => is(right - coordinates(layer)),
        "H counts no loops" => is(right - loops(layer)),
        "H counts no nodes" => is(right - layer.nodes.len() as i64),
        "H counts no areas" => is(right - layer.areas.len() as i64),
        "H counts no last record" => is((right - 1).max(0)),
        "H counts itself and the M" => is(right + 2),
        "H counts from its M on" => is(i64::from(layer.record) - i64::from(mesh.record) + right),
        "H counts to the next M" => itself(last && !here.is_last()),
        "H counts to the next H or M" => itself(!last || !here.is_last()),
        "H counts to the mesh's end" => is(mesh_ends - i64::from(layer.record)),
        "H counts to the file's end" => is(i64::from(found.records) - i64::from(layer.record)),
        "H counts what its M counts" => is(behind(mesh)),
        "H tells no more than it has" => told <= right,
        "H tells no fewer than it has" => told >= right,
        "H tells one fewer or what it has" => is(right) || is(right - 1),
        "H tells one off" => (told - right).abs() == 1,
        "H is not judged" => true,
        "H1 is not judged" => layer.letters == UNSTRUCTURED || is(right),
        "H2 is not judged" => layer.letters == STRUCTURED || is(right),
        "the second H of a mesh is not judged" => number == 1 || is(right),
        "the first of two H is not judged" => !last || is(right),
        "later meshes are not judged" => place > 0 || is(right),
        "the last mesh is not judged" => here.is_last() || is(right),
        "the first mesh is not judged" => place == 0 || is(right),
        "H by its last two digits" => told % 100 == right % 100,
        "H by a byte" => told % 256 == right % 256,
        "H by four digits" => told % 10_000 == right % 10_000,
        "H by half a word" => told % 65_536 == right % 65_536,
        "H tells at most 99,999" => is(right.min(99_999)),
        "H tells five digits" | "both tell five digits" => is(right % 100_000),
        "H counts in half a word" => is(right % 65_536),
        "H counts in half a word with a sign" => is(right) && right < 32_768,
        _ => is(right),
    }
}

/// Every M and H of a file counts itself as well.
fn is_old(found: &Found) -> bool {
    found.meshes.iter().enumerate().all(|(place, mesh)| Here { found, mesh, place }.is_old())
}

/// The refusals for records totals that a wrong judge does not take, in file order, each with the place of its mesh.
fn faults(wrong: &str, found: &Found) -> Vec<(usize, Refusal)> {
    let mut faults = Vec::new();
    for (place, mesh) in found.meshes.iter().enumerate() {
        let here = Here { found, mesh, place };
        let refusal = |record, column| (place, Refusal { number: 10, record, column });
        faults.extend((!takes_m(wrong, here)).then(|| refusal(mesh.record, 52)));
        let refused = (0..mesh.layers.len()).filter(|number| !takes_h(wrong, here, *number));
        faults.extend(refused.map(|number| refusal(mesh.layers[number].record, 25)));
    }
    faults
}

/// What stage 2 finds as a wrong judge takes it: totals that it takes are right, all others are not.
fn mistake(wrong: &str, found: &mut Found) {
    let refused: Vec<u32> = faults(wrong, found).iter().map(|(_, refusal)| refusal.record).collect();
    let keep = |record: &u32, right: u32| if refused.contains(record) { -1 } else { right as i32 };
    for mesh in &mut found.meshes {
        mesh.told[3] = keep(&mesh.record, mesh.behind);
        for layer in &mut mesh.layers {
            layer.told_records = keep(&layer.record, layer.behind);
            if wrong == "A leaves a line out" {
                layer.areas.iter_mut().for_each(|area| area.told_lines += 1);
            }
        }
        match wrong {
            "M leaves a node out" => mesh.told[0] += 1,
            "M leaves a line out" => mesh.told[1] += 1,
            "M leaves an area out" => mesh.told[2] += 1,
            _ => (),
        }
    }
}

// Numbers, places and the order of refusals.

/// A refusal for a total as a wrong judge gives it, if it gives another one. All those for records totals are in file order.
fn misplaced(wrong: &str, verdict: &Verdict, faults: &[(usize, Refusal)]) -> Option<Refusal> {
    let Refusal { number, record, column } = verdict.late;
    let (total, of_m, of_h) = (number == 10, number == 10 && column == 52, number == 10 && column == 25);
    let other = |number, record, column| Some(Refusal { number, record, column });
    let at = |yes: fn(&Refusal) -> bool| faults.iter().map(|(_, refusal)| *refusal).find(yes);
    let mesh = faults.iter().find(|(_, refusal)| refusal.record == record).map(|(mesh, _)| *mesh);
    let in_mesh = faults.iter().find(|(place, refusal)| Some(*place) == mesh && refusal.column == 25);
    let mesh_record = (1..=record).rev().find(|k| verdict.kinds[*k as usize - 1] == Kind::M).unwrap_or(0);
    let ends = |kinds: &[Kind]| {
        let next = verdict.kinds.iter().zip(1..).skip(record as usize).find(|(kind, _)| kinds.contains(kind));
        next.map_or(verdict.kinds.len() as u32, |(_, k)| k - 1)
    };
    match wrong {
        "places exchanged" if of_m => other(10, record, 25),
        "places exchanged" if of_h => other(10, record, 52),
        "M at 25" if of_m => other(10, record, 25),
        "H at 52" if of_h => other(10, record, 52),
        "M at its points" if of_m => other(10, record, 47),
        "M at its letters" if of_m => other(10, record, 1),
        "M at the blank" if of_m => other(10, record, 57),
        "M at its H" if of_m => other(10, record + 1, 25),
        "M at its last record" if of_m => other(10, ends(&[Kind::M]), 52),
        "H at its points" if of_h => other(10, record, 20),
        "H at its letters" if of_h => other(10, record, 1),
        "H at the blank" if of_h => other(10, record, 30),
        "H at its M" if of_h => other(10, mesh_record, 52),
        "H at the record behind it" if of_h => other(10, record + 1, 25),
        "H at its last record" if of_h => other(10, ends(&[Kind::M, Kind::H]), 25),
        "no place" if of_m || of_h => other(10, 0, 0),
        "records count from 0" if of_m || of_h => other(10, record - 1, column),
        "6 for M" if of_m => other(6, record, column),
        "6 for H" if of_h => other(6, record, column),
        "7 for M" if of_m => other(7, record, column),
        "8 for H" if of_h => other(8, record, column),
        "11 for H" if of_h => other(11, record, column),
        "12 for M" if of_m => other(12, record, column),
        "H before M" if of_m => in_mesh.map(|(_, refusal)| *refusal),
        "all H before all M" if total => at(|refusal| refusal.column == 25),
        "all M before all H" if total => at(|refusal| refusal.column == 52),
        "the last one" if of_m || of_h => faults.last().map(|(_, refusal)| *refusal),
        "records before nodes" if total => at(|refusal| refusal.column == 52).filter(|first| first.record == record),
        "records before all totals" if total => faults.first().map(|(_, refusal)| *refusal),
        _ => None,
    }
}

/// A wrong judge's verdict.
fn misjudged(wrong: &str, file: &[u8]) -> Verdict {
    let (mut wrongs, mut meshes, mut heads, mut first) = (Vec::new(), 0, 0, 0);
    let behind_stages = match wrong {
        "records behind all stages" => Some(0),
        "records of M behind all stages" => Some(52),
        "records of H behind all stages" => Some(25),
        _ => None,
    };
    let mut verdict = verdict_by(file, |found| {
        wrongs = faults(wrong, found);
        (meshes, heads) = (found.meshes.len() as u32, found.layers().count() as u32);
        first = found.meshes[0].behind + 1;
        mistake(wrong, found);
        for mesh in &mut found.meshes {
            if matches!(behind_stages, Some(0 | 52)) {
                mesh.told[3] = mesh.behind as i32;
            }
            for layer in mesh.layers.iter_mut().filter(|_| matches!(behind_stages, Some(0 | 25))) {
                layer.told_records = layer.behind as i32;
            }
        }
    });
    if behind_stages.is_some() && verdict.early == verdict.late {
        verdict.late = wrongs.first().map(|(_, refusal)| *refusal).unwrap_or_default();
    }
    if let Some(refusal) = misplaced(wrong, &verdict, &wrongs) {
        verdict.late = refusal;
    }
    let zero = |column| wrongs.iter().find(|(_, refusal)| refusal.column == column).map(|(_, refusal)| *refusal);
    match wrong {
        "6 for 0 of an H" | "6 for 0 of an M" if verdict.early.number == 0 => {
            let bearer = if wrong.ends_with("H") { Kind::H } else { Kind::M };
            if let Some(refusal) = first_zero(file, &verdict.kinds, bearer) {
                verdict.early = refusal;
                (verdict.table, verdict.layers) = (Vec::new(), 0);
            }
        }
        "totals while walking" if verdict.early.number > 2 => {
            // The meshes before the one that is refused.
            let walked = &verdict.kinds[..(verdict.early.record as usize).min(verdict.kinds.len())];
            let whole = walked.iter().rposition(|kind| *kind == Kind::M).unwrap_or(0);
            let before = second::judge::verdict(&file[..whole * RECORD]);
            if before.late.number == 10 {
                verdict.early = before.late;
            }
        }
        "M before the room" if zero(52) == Some(verdict.late) => verdict.early = verdict.late,
        "H before the room" if zero(25) == Some(verdict.late) => verdict.early = verdict.late,
        _ => (),
    }
    let records = &mut verdict.counts.records;
    *records = match wrong {
        "records without M" => records.saturating_sub(meshes),
        "records without H" => records.saturating_sub(heads),
        "records without M and H" => records.saturating_sub(meshes + heads),
        "records without the first M" => records.saturating_sub(1),
        "records and each M twice" if *records > 0 => *records + meshes,
        "records of the first mesh" if *records > 0 => first,
        _ => *records,
    };
    verdict
}

/// The first M or H that tells 0 records, as a wrong stage 2 refuses it.
fn first_zero(file: &[u8], kinds: &[Kind], bearer: Kind) -> Option<Refusal> {
    let field = records_total(bearer)?;
    let tells = |k: u32| field.of(record(file, k as usize)) == b"    0";
    let (_, k) = kinds.iter().zip(1..).find(|(kind, k)| **kind == bearer && tells(*k))?;
    Some(Refusal { number: 6, record: k, column: field.start as u32 })
}

/// A value with its records total changed, if it is of this kind.
fn retold(value: RawValue, kind: Kind, more: i32) -> RawValue {
    let mut told = value;
    let index = if kind == Kind::M { m::RECORDS } else { h::RECORDS };
    told.numbers[index] += if value.kind == kind as u32 { more } else { 0 };
    told
}

impl Product for Wrong {
    fn need(&self, file: &[u8]) -> u64 {
        let Some(wrong) = self.about("need") else { return Second.need(file) };
        let late = verdict(file).late;
        match wrong {
            "none where a total of an M is wrong" if (late.number, late.column) == (10, 52) => 0,
            "none where a total of an H is wrong" if (late.number, late.column) == (10, 25) => 0,
            _ => Second.need(file),
        }
    }

    fn judge(&self, file: &[u8], table: &mut [u32], measures: &mut [i64]) -> Outcome {
        let Some(wrong) = self.about("judge") else { return Second.judge(file, table, measures) };
        let verdict = misjudged(wrong, file);
        let outcome = verdict.outcome(table.len(), measures.len());
        put_table(wrong, &verdict, table);
        if outcome.refusal.number == 0 {
            measures[..verdict.measures.len()].copy_from_slice(&verdict.measures);
        }
        outcome
    }

    fn layer_sums(&self, file: &[u8], table: &mut [u32], layer: u32) -> (Refusal, Sums) {
        let Some(wrong) = self.about("sums") else { return Second.layer_sums(file, table, layer) };
        let verdict = misjudged(wrong, file);
        put_table(wrong, &verdict, table);
        answer(&verdict, table.len(), layer)
    }

    fn all_sums(&self, file: &[u8], table: &mut [u32], sums: &mut [i64]) -> Outcome {
        let Some(wrong) = self.about("all sums") else { return Second.all_sums(file, table, sums) };
        let verdict = misjudged(wrong, file);
        put_table(wrong, &verdict, table);
        let (outcome, found) = answer_for_all(&verdict, table.len(), sums.len());
        sums[..found.len()].copy_from_slice(&found);
        outcome
    }

    fn due(&self, file: &[u8], at: u32) -> u32 {
        Second.due(file, at)
    }

    fn position(&self, mesh: i32, x: i32, y: i32) -> (u32, f64, f64) {
        Second.position(mesh, x, y)
    }

    fn read_record(&self, kind: u32, bytes: &[u8]) -> (Refusal, RawValue) {
        let (refusal, value) = Second.read_record(kind, bytes);
        let Some(wrong) = self.about("reader") else { return (refusal, value) };
        let good = refusal.number == 0;
        let zero = |index: usize| good && value.numbers[index] == 0;
        let refused = |column| (Refusal { number: 5, record: 1, column }, Second.read_record(kind, &[]).1);
        match (wrong, KINDS[kind as usize - 1]) {
            ("M counts itself", Kind::M) if good => (refusal, retold(value, Kind::M, 1)),
            ("H counts itself", Kind::H) if good => (refusal, retold(value, Kind::H, 1)),
            ("M leaves itself out", Kind::M) if good => (refusal, retold(value, Kind::M, -1)),
            ("H leaves itself out", Kind::H) if good => (refusal, retold(value, Kind::H, -1)),
            ("0 of an M", Kind::M) if zero(m::RECORDS) => refused(52),
            ("0 of an H", Kind::H) if zero(h::RECORDS) => refused(25),
            _ => (refusal, value),
        }
    }

    fn write_record(&self, value: RawValue, buffer: &mut [u8]) -> u32 {
        let Some(wrong) = self.about("writer") else { return Second.write_record(value, buffer) };
        let fits = buffer.len() >= RECORD && Second.write_record(value, &mut [0; RECORD]) == 0;
        let zero = |kind: Kind, index: usize| fits && value.kind == kind as u32 && value.numbers[index] == 0;
        match wrong {
            "0 of an M" if zero(Kind::M, m::RECORDS) => 20,
            "0 of an H" if zero(Kind::H, h::RECORDS) => 20,
            "M counts itself" if fits => Second.write_record(retold(value, Kind::M, 1), buffer),
            "H counts itself" if fits => Second.write_record(retold(value, Kind::H, 1), buffer),
            "M leaves itself out" if fits => Second.write_record(retold(value, Kind::M, -1), buffer),
            "H leaves itself out" if fits => Second.write_record(retold(value, Kind::H, -1), buffer),
            _ => Second.write_record(value, buffer),
        }
    }
}

fn put_table(wrong: &str, verdict: &Verdict, table: &mut [u32]) {
    let untouched = match wrong {
        "no table with a wrong total of an M" => (verdict.late.number, verdict.late.column) == (10, 52),
        "no table with a wrong total of an H" => (verdict.late.number, verdict.late.column) == (10, 25),
        _ => false,
    };
    if verdict.table_stands(table.len()) && !untouched {
        table[..verdict.table.len()].copy_from_slice(&verdict.table);
    }
}

/// The smaller comparison. Most of these wrong answers are found by its part about records totals, so that comes first.
fn totals_first(compare: &mut Compare) -> Agreed {
    records_totals(compare).and_then(|()| compared(compare))
}

/// The program that is made wrong is right where none of the wrong answers is asked for.
#[test]
fn without_a_wrong_answer_it_agrees() {
    for call in ["need: none", "judge: none", "sums: none", "all sums: none", "reader: none", "writer: none"] {
        compared(&mut Compare::new(&Wrong(call))).unwrap();
    }
}

#[test]
fn bearers_that_count_themselves_are_found() {
    are_found_by(totals_first, Wrong, &[
        "judge: M counts itself", "judge: H counts itself", "judge: both count themselves", "judge: M may count itself",
        "judge: H may count itself", "judge: both may count themselves", "judge: a file may be old",
        "judge: a mesh may be old", "judge: as the first M counts", "judge: as its M counts", "judge: as its H counts",
        "judge: as the first H counts", "judge: M of one layer counts itself", "judge: M of two layers counts itself",
        "judge: the first M counts itself", "judge: a later M counts itself", "judge: the last M counts itself",
        "judge: an M before another counts itself", "judge: M over H1 counts itself", "judge: M over H2 counts itself",
        "judge: M over H1 and H2 counts itself", "judge: M over layer 1 counts itself", "judge: M over layer 5 counts itself",
        "judge: M over an H alone counts itself", "judge: M over two H alone counts itself",
        "judge: M over areas counts itself", "judge: M over no areas counts itself", "judge: H1 counts itself",
        "judge: H2 counts itself", "judge: H of layer 1 counts itself", "judge: H of layer 5 counts itself",
        "judge: the first H of a mesh counts itself", "judge: the second H of a mesh counts itself",
        "judge: the only H of a mesh counts itself", "judge: an H beside another counts itself",
        "judge: the first of two H counts itself", "judge: an H alone counts itself", "judge: an H1 alone counts itself",
        "judge: an H2 alone counts itself", "judge: a second H alone counts itself",
        "judge: an H that is not alone counts itself", "judge: an H with areas counts itself",
        "judge: an H without areas counts itself", "judge: an H in the first mesh counts itself",
        "judge: an H in a later mesh counts itself", "judge: an H alone tells 0 or 1",
    ]);
}

#[test]
fn other_counts_are_found() {
    are_found_by(totals_first, Wrong, &[
        "judge: M counts no H", "judge: M counts one H", "judge: M counts no H1", "judge: M counts no H2",
        "judge: M counts no H alone", "judge: M counts no H but those alone", "judge: M counts each H twice",
        "judge: M counts itself and no H", "judge: M counts H where it has one layer", "judge: M counts its first layer",
        "judge: M counts its last layer", "judge: M counts its first layer and itself", "judge: M sums what its H tell",
        "judge: M sums what its H tell, and each H", "judge: M sums what its H tell, and itself",
        "judge: M counts no coordinates", "judge: M counts no loops", "judge: M counts no nodes",
        "judge: M counts to the file's end", "judge: M counts from the file's start", "judge: M counts the meshes before",
        "judge: H counts nodes, lines and areas", "judge: H counts no coordinates", "judge: H counts no loops",
        "judge: H counts no nodes", "judge: H counts no areas", "judge: H counts no last record",
        "judge: H counts itself and the M", "judge: H counts from its M on", "judge: H counts to the next M",
        "judge: H counts to the next H or M", "judge: H counts to the mesh's end", "judge: H counts to the file's end",
        "judge: H counts what its M counts",
    ]);
}

#[test]
fn totals_that_are_not_judged_are_found() {
    are_found_by(totals_first, Wrong, &[
        "judge: M tells no more than it has", "judge: M tells no fewer than it has",
        "judge: M tells one fewer or what it has", "judge: M tells one off", "judge: M is not judged",
        "judge: M of one layer is not judged", "judge: M of two layers is not judged",
        "judge: M over an H alone is not judged", "judge: M over H1 is not judged", "judge: later meshes are not judged",
        "judge: the last mesh is not judged", "judge: the first mesh is not judged", "judge: 0 of an M is not judged",
        "judge: 0 is not judged", "judge: H tells no more than it has", "judge: H tells no fewer than it has",
        "judge: H tells one fewer or what it has", "judge: H tells one off", "judge: H is not judged",
        "judge: H1 is not judged", "judge: H2 is not judged", "judge: the second H of a mesh is not judged",
        "judge: the first of two H is not judged", "judge: an H alone is not judged", "judge: an H alone is refused",
        "judge: an H1 alone is refused", "judge: an H2 alone is refused", "judge: 0 of an H is not judged",
        "judge: 6 for 0 of an H", "judge: 6 for 0 of an M",
    ]);
}

#[test]
fn totals_cut_short_are_found() {
    are_found_by(totals_first, Wrong, &[
        "judge: M by its last two digits", "judge: M by a byte", "judge: M by four digits", "judge: M by half a word",
        "judge: H by its last two digits", "judge: H by a byte", "judge: H by four digits", "judge: H by half a word",
    ]);
    are_found_by(full_totals, Wrong, &[
        "judge: M tells at most 99,999", "judge: M tells five digits", "judge: both tell five digits",
        "judge: M counts in half a word", "judge: M counts in half a word with a sign", "judge: M has at most 99,999 records",
        "judge: H counts in half a word", "judge: H counts in half a word with a sign",
    ]);
}

/// An H that has more records than five digits tell stands in a mesh that has more, and its M goes first.
#[test]
fn an_h_cut_at_five_digits_means_the_same() {
    for wrong in ["judge: H tells at most 99,999", "judge: H tells five digits"] {
        let wrong = Wrong(wrong);
        let compare = &mut Compare::new(&wrong);
        compared(compare).and_then(|()| full_totals(compare)).unwrap();
    }
}

#[test]
fn wrong_numbers_places_and_orders_are_found() {
    are_found_by(totals_first, Wrong, &[
        "judge: places exchanged", "judge: M at 25", "judge: H at 52", "judge: M at its points", "judge: M at its letters",
        "judge: M at the blank", "judge: M at its H", "judge: M at its last record", "judge: H at its points",
        "judge: H at its letters", "judge: H at the blank", "judge: H at its M", "judge: H at the record behind it",
        "judge: H at its last record", "judge: no place", "judge: records count from 0", "judge: 6 for M", "judge: 6 for H",
        "judge: 7 for M", "judge: 8 for H", "judge: 11 for H", "judge: 12 for M", "judge: H before M",
        "judge: all H before all M", "judge: all M before all H", "judge: the last one", "judge: records before nodes",
        "judge: records before all totals", "judge: records behind all stages", "judge: records of M behind all stages",
        "judge: records of H behind all stages", "judge: totals while walking", "judge: M before the room",
        "judge: H before the room",
    ]);
}

#[test]
fn other_totals_and_counts_that_leave_one_out_are_found() {
    are_found_by(totals_first, Wrong, &[
        "judge: A leaves a line out", "judge: M leaves a node out", "judge: M leaves a line out",
        "judge: M leaves an area out", "judge: records without M", "judge: records without H",
        "judge: records without M and H", "judge: records without the first M", "judge: records and each M twice",
        "judge: records of the first mesh", "judge: no table with a wrong total of an M",
        "judge: no table with a wrong total of an H", "all sums: records without M", "all sums: records without H",
        "all sums: records without M and H", "all sums: records without the first M",
        "need: none where a total of an M is wrong", "need: none where a total of an H is wrong",
    ]);
}

#[test]
fn wrong_totals_in_the_sums_are_found() {
    are_found_by(totals_first, Wrong, &[
        "sums: M counts itself", "sums: H counts itself", "sums: both count themselves", "sums: both may count themselves",
        "sums: a file may be old", "sums: M counts no H", "sums: M counts its first layer",
        "sums: M of two layers counts itself", "sums: an H alone counts itself", "sums: H1 counts itself",
        "sums: M is not judged", "sums: H is not judged", "sums: later meshes are not judged", "sums: places exchanged",
        "sums: H before M", "all sums: M counts itself", "all sums: H counts itself", "all sums: both count themselves",
        "all sums: both may count themselves", "all sums: a file may be old", "all sums: M counts no H",
        "all sums: M counts its first layer", "all sums: M of two layers counts itself", "all sums: an H alone counts itself",
        "all sums: H1 counts itself", "all sums: M is not judged", "all sums: H is not judged",
        "all sums: later meshes are not judged", "all sums: places exchanged", "all sums: H before M",
    ]);
}

#[test]
fn wrong_totals_of_records_are_found() {
    are_found(Wrong, &[
        "reader: M counts itself", "reader: H counts itself", "reader: M leaves itself out", "reader: H leaves itself out",
        "reader: 0 of an M", "reader: 0 of an H", "writer: M counts itself", "writer: H counts itself",
        "writer: M leaves itself out", "writer: H leaves itself out", "writer: 0 of an M", "writer: 0 of an H",
    ]);
}
