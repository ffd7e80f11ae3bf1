//! Many rays at once.
use crate::answers::Report;
use crate::ray::Ray;
use crate::record::Record;
use crate::refusal::Refusal;
use crate::timed::{Span, TimedRecord};
use std::num::NonZero;
use std::thread;

/// How many threads run at once on this machine.
pub fn cores() -> usize {
    thread::available_parallelism().map_or(1, NonZero::get)
}

/// What `ask` answers for each item, in the items' order, the work shared by so many threads.
///
/// ```
/// use funnelcress::{Options, Ray, Tree, cores, on_threads};
///
/// let record = Tree::over(&[[0.0, 0.0, 0.0, 1.0, 1.0, 1.0]]).convert(Options::default())?;
/// let rays: Vec<Ray> = (0..1000).map(|k| Ray::new([-1.0, k as f32 / 500.0, 0.5], [1.0, 0.0, 0.0])).collect();
/// let met = on_threads(cores(), &rays, |ray| record.any_hit(ray).map(|met| met.positions.len()));
/// assert_eq!(met[0], Ok(1));
/// assert_eq!(met[999], Ok(0));
/// # Ok::<(), funnelcress::Refusal>(())
/// ```
pub fn on_threads<I: Sync, T: Send>(threads: usize, items: &[I], ask: impl Fn(&I) -> T + Sync) -> Vec<T> {
    let share = items.len().div_ceil(threads.max(1)).max(1);
    let ask = &ask;
    thread::scope(|scope| {
        let running: Vec<_> =
            items.chunks(share).map(|part| scope.spawn(move || part.iter().map(ask).collect::<Vec<T>>())).collect();
        running.into_iter().flat_map(|part| part.join().expect("asking does not panic")).collect()
    })
}

/// The report of [`Record::report`], the rays shared by so many threads. Each part's totals are the library's; that the
/// pane totals of the parts are added up here is outside its proof.
///
/// ```
/// use funnelcress::{Options, Ray, Tree, cores, report_on_threads};
///
/// let record = Tree::over(&[[0.0, 0.0, 0.0, 1.0, 1.0, 1.0]]).convert(Options::default())?;
/// let rays: Vec<Ray> = (0..1000).map(|k| Ray::new([-1.0, k as f32 / 500.0, 0.5], [1.0, 0.0, 0.0])).collect();
/// let report = report_on_threads(cores(), &record, 1, &[250], &rays)?;
/// assert_eq!(report, record.report(1, &[250], &rays)?);
/// # Ok::<(), funnelcress::Refusal>(())
/// ```
pub fn report_on_threads(
    threads: usize,
    record: &Record,
    panes: usize,
    losses: &[u32],
    rays: &[Ray],
) -> Result<Report, Refusal> {
    if threads < 2 || rays.len() < 2 || rays.len() > crate::MAX_RAYS {
        return record.report(panes, losses, rays);
    }
    let parts: Vec<&[Ray]> = rays.chunks(rays.len().div_ceil(threads)).collect();
    together(on_threads(threads, &parts, |part| record.report(panes, losses, part)))
}

/// The report of [`TimedRecord::report`], the rays and their quarter hours shared by so many threads, as
/// [`report_on_threads`] shares them.
pub fn timed_report_on_threads(
    threads: usize,
    record: &TimedRecord,
    panes: usize,
    spans: &[Span],
    losses: &[u32],
    rays: &[Ray],
    quarters: &[u8],
) -> Result<Report, Refusal> {
    if threads < 2 || rays.len() < 2 || rays.len() > crate::MAX_RAYS || rays.len() != quarters.len() {
        return record.report(panes, spans, losses, rays, quarters);
    }
    let share = rays.len().div_ceil(threads);
    let parts: Vec<(&[Ray], &[u8])> = rays.chunks(share).zip(quarters.chunks(share)).collect();
    together(on_threads(threads, &parts, |(rays, quarters)| record.report(panes, spans, losses, rays, quarters)))
}

/// The whole list's report from its parts', or its refusal: 14 of any quarter hour comes before 9 of any ray, and that before
/// 10 of any other; whatever else refuses one part refuses all.
fn together(parts: Vec<Result<Report, Refusal>>) -> Result<Report, Refusal> {
    let place = |refusal: &&Refusal| (**refusal != Refusal::Spans, refusal.number());
    let first = parts.iter().filter_map(|part| part.as_ref().err()).min_by_key(place);
    if let Some(refusal) = first {
        return Err(*refusal);
    }
    let mut parts = parts.into_iter().flatten();
    let mut all = parts.next().expect("a list of rays has a part");
    for part in parts {
        all.rays.extend(part.rays);
        all.panes.iter_mut().zip(part.panes).for_each(|(sum, total)| *sum += total);
        all.tests += part.tests;
    }
    Ok(all)
}
