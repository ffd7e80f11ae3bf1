//! The commands.
use crate::args::Args;
use crate::failure::Failure;
use crate::output::{self, Progress, joined};
use crate::{files, help};
use funnelcress::{
    AnyHit, Closest, Miss, Pane, Ray, Record, Refusal, Report, TimedRecord, Tree, Verdict, on_threads,
    report_on_threads, timed_report_on_threads,
};

type Command = fn(&Args) -> Result<(), Failure>;

/// A command and its help.
pub fn named(name: &str) -> Option<(&'static str, Command)> {
    Some(match name {
        "tree" => (help::TREE, tree),
        "join" => (help::JOIN, join),
        "convert" => (help::CONVERT, convert),
        "check" => (help::CHECK, check),
        "any-hit" => (help::ANY_HIT, any_hit),
        "closest" => (help::CLOSEST, closest),
        "miss" => (help::MISS, miss),
        "report" => (help::REPORT, report),
        _ => return None,
    })
}

fn tree(args: &Args) -> Result<(), Failure> {
    let [panes] = args.files()?;
    let out = args.out()?;
    let tree = Tree::over(&files::panes(panes)?);
    files::write(out, &files::tree_bytes(&tree, args.limit.unwrap_or(3), args.order.unwrap_or(1)))?;
    output::text(&format!("{} leaves\n", tree.indices().len()))
}

fn join(args: &Args) -> Result<(), Failure> {
    let [first, second] = args.files()?;
    let (panes, out) = (args.panes()?, args.out()?);
    let (first, limit, order) = files::tree(first)?;
    let (second, ..) = files::tree(second)?;
    let tree = first.join(panes, &second)?;
    files::write(out, &files::tree_bytes(&tree, args.limit.unwrap_or(limit), args.order.unwrap_or(order)))?;
    output::text(&format!("{} leaves\n", tree.indices().len()))
}

fn convert(args: &Args) -> Result<(), Failure> {
    let [name] = args.files()?;
    let out = args.out()?;
    let (tree, limit, order) = files::tree(name)?;
    let (limit, order) = (args.limit.unwrap_or(limit), args.order.unwrap_or(order));
    let record = match &args.spans {
        None => tree.convert_by(limit, order)?,
        Some(spans) => {
            let spans = files::spans(spans)?;
            let timed = tree.convert_timed_by(args.panes.unwrap_or(spans.len()), &spans, limit, order)?;
            files::write(&format!("{out}.side"), timed.side())?;
            timed.into_record()
        }
    };
    files::write(&format!("{out}.record"), &files::record_bytes(&record))?;
    files::write(&format!("{out}.list"), &files::to_bytes(record.indices()))?;
    let (nodes, n) = (record.bytes().len() / funnelcress::NODE_BYTES, record.positions());
    output::text(&match args.json {
        true => format!("{{\"nodes\":{nodes},\"positions\":{n}}}\n"),
        false => format!("converted {nodes} nodes {n} positions\n"),
    })
}

fn check(args: &Args) -> Result<(), Failure> {
    let [name] = args.files()?;
    let (n, bytes) = files::record(name)?;
    let verdict = Record::from_parts(bytes, vec![0; n]).check();
    let (plain, json) = match verdict {
        Ok(Verdict::Sound(level)) => (format!("sound {level}"), format!("{{\"sound\":true,\"level\":{level}}}")),
        Ok(Verdict::Unsound) => ("unsound".into(), "{\"sound\":false}".into()),
        Err(r) => (format!("refused {}", r.number()), format!("{{\"refused\":{}}}", r.number())),
    };
    output::text(&format!("{}\n", if args.json { json } else { plain }))?;
    sound(verdict)
}

fn sound(verdict: Result<Verdict, Refusal>) -> Result<(), Failure> {
    match verdict? {
        Verdict::Sound(_) => Ok(()),
        Verdict::Unsound => Err(Failure::Unsound),
    }
}

/// How many rays are answered before their lines are written.
const BATCH: usize = 1 << 16;

/// Asks for each ray, on all cores, and prints a line for each.
fn each<T: Send>(
    args: &Args,
    record: &Record,
    rays: &[Ray],
    ask: impl Fn(&Ray) -> Result<T, Refusal> + Sync,
    line: impl Fn(usize, &T) -> String,
) -> Result<(), Failure> {
    sound(record.check())?;
    let (mut count, mut first) = (0, None);
    let mut progress = Progress::new(rays.len());
    for (batch, part) in rays.chunks(BATCH).enumerate() {
        let mut lines = String::new();
        for (k, answer) in on_threads(args.threads(), part, &ask).iter().enumerate() {
            let ray = batch * BATCH + k;
            match answer {
                Ok(x) => lines += &line(ray, x),
                Err(refusal) => {
                    count += 1;
                    first.get_or_insert((ray, *refusal));
                    lines += &output::refused(ray, *refusal, args.json);
                }
            }
            lines.push('\n');
        }
        output::text(&lines)?;
        progress.at(batch * BATCH + part.len());
    }
    match first {
        None => Ok(()),
        Some((ray, refusal)) => {
            eprintln!("funnelcress: ray {ray}: {refusal}");
            Err(Failure::SomeRefused(count))
        }
    }
}

fn any_hit(args: &Args) -> Result<(), Failure> {
    let [record, rays] = args.files()?;
    let (n, bytes) = files::record(record)?;
    let record = Record::from_parts(bytes, vec![0; n]);
    let line = |ray, a: &AnyHit| match args.json {
        true => format!("{{\"ray\":{ray},\"tests\":{},\"positions\":[{}]}}", a.tests, joined(&a.positions, ",")),
        false => format!("{ray} tests {} positions {}", a.tests, joined(&a.positions, " ")).trim_end().into(),
    };
    each(args, &record, &files::rays(rays)?, |r| record.any_hit(r), line)
}

/// The record with its list, the panes and the rays of `closest` and `miss`.
fn house(args: &Args) -> Result<(Record, Vec<Pane>, Vec<Ray>), Failure> {
    let [record, list, panes, rays] = args.files()?;
    let (_, bytes) = files::record(record)?;
    Ok((Record::from_parts(bytes, files::list(list)?), files::panes(panes)?, files::rays(rays)?))
}

fn closest(args: &Args) -> Result<(), Failure> {
    let (record, panes, rays) = house(args)?;
    let line = |ray, c: &Closest| {
        let hit = c.hit.map(|h| (h.position, record.indices()[h.position as usize], h.distance));
        match (args.json, hit) {
            (true, Some((p, pane, t))) => {
                format!("{{\"ray\":{ray},\"tests\":{},\"position\":{p},\"pane\":{pane},\"distance\":{t}}}", c.tests)
            }
            (true, None) => format!("{{\"ray\":{ray},\"tests\":{},\"position\":null}}", c.tests),
            (false, Some((p, pane, t))) => format!("{ray} tests {} hit {p} pane {pane} at {t}", c.tests),
            (false, None) => format!("{ray} tests {} none", c.tests),
        }
    };
    each(args, &record, &rays, |r| record.closest(&panes, r), line)
}

fn miss(args: &Args) -> Result<(), Failure> {
    let (record, panes, rays) = house(args)?;
    let line = |ray, m: &Miss| match args.json {
        true => format!("{{\"ray\":{ray},\"tests\":{},\"missed\":{}}}", m.tests, m.missed),
        false => format!("{ray} tests {} {}", m.tests, if m.missed { "missed" } else { "blocked" }),
    };
    each(args, &record, &rays, |r| record.miss(&panes, r), line)
}

fn report(args: &Args) -> Result<(), Failure> {
    let [record, list, losses, rays] = args.files()?;
    let (_, bytes) = files::record(record)?;
    let record = Record::from_parts(bytes, files::list(list)?);
    let (losses, rays) = (files::losses(losses)?, files::rays(rays)?);
    let hours = args.hours()?;
    sound(record.check())?;
    let (threads, panes) = (args.threads(), args.panes.unwrap_or(losses.len()));
    let Report { rays, panes, tests } = match hours {
        None => report_on_threads(threads, &record, panes, &losses, &rays)?,
        Some([side, spans, quarters]) => {
            let timed = TimedRecord::from_parts(record, files::bytes(side)?);
            let (spans, quarters) = (files::spans(spans)?, files::quarters(quarters)?);
            timed_report_on_threads(threads, &timed, panes, &spans, &losses, &rays, &quarters)?
        }
    };
    let totals = |kind, totals: &[u64]| output::totals(kind, totals, args.json);
    output::text(&(totals("ray", &rays) + &totals("pane", &panes) + &output::tests(tests, args.json)))
}
