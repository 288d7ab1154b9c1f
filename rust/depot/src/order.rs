//! The crews' numbers: a junior before its seniors, and otherwise in the file's order.

use crate::fault::Fault;
use crate::model::{members, Depot, Fact, Kind, Question, Statement, MOST_CREWS};
use crate::names::Names;

/// Numbers the crews of a depot whose statements still have the file's order as numbers. A circle is a fault, at the last
/// edge of it; `overs` has column and width of each edge's word `over`.
pub fn number_crews(depot: &mut Depot, names: &Names, overs: &[(usize, usize)]) -> Option<Fault> {
    if names.crews.len() > MOST_CREWS {
        return None;
    }
    let edges = edges(depot, overs);
    let mut juniors: Vec<u32> = vec![0; names.crews.len()];
    edges.iter().for_each(|edge| juniors[edge.senior] |= 1 << edge.junior);
    let mut order: Vec<usize> = Vec::new();
    let mut numbered = 0u32;
    let mut left: Vec<usize> = (0..names.crews.len()).collect();
    // The first crew whose juniors all have their numbers comes next.
    while let Some(at) = left.iter().position(|crew| juniors[*crew] & !numbered == 0) {
        numbered |= 1 << left[at];
        order.push(left.remove(at));
    }
    if !left.is_empty() {
        return Some(circle(&edges, &left, names));
    }
    depot.crews = order.iter().map(|crew| names.crews[*crew].clone()).collect();
    let mut number = vec![0; order.len()];
    order.iter().enumerate().for_each(|(new, old)| number[*old] = new as u8);
    renumber(depot, &number);
    None
}

/// An edge with its line.
struct Edge {
    senior: usize,
    junior: usize,
    line: usize,
    /// Column and width of its `over`.
    over: (usize, usize),
}

fn edges(depot: &Depot, overs: &[(usize, usize)]) -> Vec<Edge> {
    let edges = depot.statements.iter().filter_map(|said| match said.what {
        Statement::Over { senior, junior } => Some((usize::from(senior), usize::from(junior), said.line)),
        _ => None,
    });
    edges.zip(overs).map(|((senior, junior, line), over)| Edge { senior, junior, line, over: *over }).collect()
}

/// A circle among the crews that can't be numbered: each of them has a junior among them, so going down comes back.
fn circle(edges: &[Edge], left: &[usize], names: &Names) -> Fault {
    let mut way: Vec<&Edge> = Vec::new();
    let mut crew = left[0];
    let begin = loop {
        if let Some(begin) = way.iter().position(|edge| edge.senior == crew) {
            break begin;
        }
        match edges.iter().find(|edge| edge.senior == crew && left.contains(&edge.junior)) {
            Some(edge) => {
                way.push(edge);
                crew = edge.junior;
            }
            None => break 0,
        }
    };
    let around: String = way[begin..].iter().map(|edge| format!("{} over ", names.crews[edge.senior])).collect();
    let last = way[begin..].iter().max_by_key(|edge| edge.line);
    let (line, (column, width)) = last.map_or((0, (0, 0)), |edge| (edge.line, edge.over));
    let fault = Fault::at(line, column, width, format!("{around}{}: crews in a circle", names.crews[crew])).refused(6);
    fault.with_help("leave out one of these lines: a crew is over its juniors alone")
}

/// Puts each crew's new number in the place of its old one.
fn renumber(depot: &mut Depot, number: &[u8]) {
    let new = |old: &mut u8| *old = number[usize::from(*old)];
    for said in &mut depot.statements {
        match &mut said.what {
            Statement::Over { senior, junior } => {
                new(senior);
                new(junior);
            }
            Statement::Rule(rule) => {
                if rule.op.names_crew() {
                    new(&mut rule.a);
                }
                rule.terms.iter_mut().filter(|term| Kind::names_crew(term.kind)).for_each(|term| new(&mut term.a));
            }
            Statement::Fact(Fact::CrewHas { crew, .. } | Fact::PersonIn { crew, .. }) => new(crew),
            Statement::Fact(Fact::PersonHas { .. }) => {}
        }
    }
    let asked = depot.question.iter_mut().map(|said| &mut said.what);
    let expected = depot.expectations.iter_mut().map(|said| &mut said.what.question);
    for Question { crews, .. } in asked.chain(expected) {
        *crews = members(*crews).map(|old| 1 << number[usize::from(old)]).sum();
    }
}
