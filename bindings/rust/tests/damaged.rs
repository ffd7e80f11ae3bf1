//! Each bad input gets its refusal, and what a refused call may not write stays.
use funnelcress::{Options, Pane, Ray, Record, Refusal, State, Step, Tree, Verdict, Walker};

const PANES: [Pane; 3] =
    [[0.0, 0.0, 0.0, 1.0, 1.0, 1.0], [2.0, 0.0, 0.0, 3.0, 1.0, 1.0], [4.0, 0.0, 0.0, 5.0, 1.0, 1.0]];

fn tree() -> Tree {
    Tree::over(&PANES)
}

fn record() -> Record {
    tree().convert(Options::default()).unwrap()
}

fn along() -> Ray {
    Ray::new([-1.0, 0.5, 0.5], [1.0, 0.0, 0.0])
}

/// The tree with one word changed.
fn with(at: usize, word: u32) -> Tree {
    let mut words = tree().words().to_vec();
    words[at] = word;
    Tree::from_words(words, tree().indices().to_vec())
}

fn refused(tree: Tree) -> u32 {
    tree.convert(Options::default()).unwrap_err().number()
}

#[test]
fn trees() {
    let (words, indices) = (tree().words().to_vec(), tree().indices().to_vec());
    assert_eq!(refused(Tree::from_words(words[..34].to_vec(), indices.clone())), 1);
    assert_eq!(refused(Tree::from_words(words.clone(), vec![0, 1])), 1);
    assert_eq!(refused(Tree::from_words(vec![0; 7 * 131_073], vec![0; 65_537])), 2);
    assert_eq!(tree().convert_by(4, 0), Err(Refusal::Limit));
    assert_eq!(tree().convert_by(3, 2), Err(Refusal::Limit));
    assert_eq!(refused(with(6, 2 << 30)), 5);
    assert_eq!(refused(with(6, 4)), 5);
    assert_eq!(refused(with(0, f32::NAN.to_bits())), 6);
    assert_eq!(refused(with(0, 9f32.to_bits())), 6);
    assert_eq!(refused(with(13, 1)), 7);
}

#[test]
fn records() {
    let (bytes, list) = (record().bytes().to_vec(), record().indices().to_vec());
    let check = |bytes: &[u8], n| Record::from_parts(bytes.to_vec(), vec![0; n]).check();
    assert_eq!(check(&bytes[..79], 3), Err(Refusal::Length));
    assert_eq!(check(&bytes, 65_537), Err(Refusal::TooMany));
    assert_eq!(check(&bytes, 4), Ok(Verdict::Unsound));
    let mut broken = bytes.clone();
    broken[12] = 200;
    assert_eq!(check(&broken, 3), Ok(Verdict::Unsound));
    let broken = Record::from_parts(broken, list.clone());
    assert_eq!(broken.any_hit(&along()), Err(Refusal::Record));
    assert_eq!(broken.closest(&PANES, &along()), Err(Refusal::Record));
    assert_eq!(broken.walk(&along()).unwrap().next(), Some(Err(Refusal::Record)));
}

#[test]
fn rays_and_panes() {
    let record = record();
    for bad in
        [along().starting(f32::NAN), along().reaching(f32::NAN), Ray::new([f32::INFINITY, 0.0, 0.0], [1.0, 0.0, 0.0])]
    {
        assert_eq!(record.any_hit(&bad), Err(Refusal::Ray));
        assert_eq!(record.closest(&PANES, &bad), Err(Refusal::Ray));
        assert_eq!(record.miss(&PANES, &bad), Err(Refusal::Ray));
        assert_eq!(record.walk(&bad).unwrap_err(), Refusal::Ray);
    }
    assert_eq!(record.closest(&PANES[..1], &along()), Err(Refusal::Record));
    let swapped: Vec<Pane> = PANES.iter().map(|p| [p[3], p[1], p[2], p[0], p[4], p[5]]).collect();
    assert_eq!(record.miss(&swapped, &along()), Err(Refusal::Box));
}

#[test]
fn a_short_list_says_what_it_needs_and_stays() {
    let mut list = [7u32; 2];
    assert_eq!(record().any_hit_into(&along(), &mut list), Err(Refusal::List { needed: 3 }));
    assert_eq!(list, [7, 7]);
    let many: Vec<Pane> = (0..2000).map(|k| [0.0, 0.0, 0.0, 1.0, 1.0, 1.0 + k as f32]).collect();
    let met = Tree::over(&many).convert(Options::default()).unwrap().any_hit(&along()).unwrap();
    assert_eq!(met.positions.len(), 2000);
}

/// The words of a walker just begun.
fn begun() -> State {
    record().walk(&along()).unwrap().state().clone()
}

/// The same with one word of its head changed.
fn altered(at: usize, word: u32) -> State {
    let mut state = begun();
    state.head[at] = word.into();
    state
}

/// The walker is refused at each step, and its words stay.
fn forged(state: State) {
    let record = record();
    let mut walker = Walker::resume(&record, state.clone());
    assert_eq!(walker.step(), Err(Refusal::Record));
    assert_eq!(walker.state(), &state);
    assert_eq!(walker.next(), Some(Err(Refusal::Record)));
    assert_eq!(walker.next(), None);
}

/// The walker tests the first node.
fn walks(state: State) {
    assert_eq!(Walker::resume(&record(), state).step(), Ok(Step::Tested(0)));
}

/// A state with one word of its head changed is some walker, and mostly a forged one.
#[test]
fn forged_states() {
    let nan = f32::NAN.to_bits();
    for (at, word) in [(0, nan), (3, nan), (6, 0), (10, nan), (11, 3), (12, 2), (17, 33)] {
        forged(altered(at, word));
    }
    forged(State { head: [0; 18], stack: [0; 32] });
    walks(begun());
}

/// The inverse of +0.0.
const INVERSE: f32 = 8_388_608.0;

/// A state with a zero in its ray's origin or direction, there with an inverse beside it.
fn with_zero(at: usize, zero: f32, inverse: f32) -> State {
    let mut state = altered(at, zero.to_bits());
    if at >= 3 {
        state.head[at + 3] = inverse.to_bits().into();
    }
    state
}

/// A walker that holds −0.0 in its ray's origin or direction is forged, whatever its inverse; telling works all the same.
#[test]
fn forged_zeros() {
    let record = record();
    for at in 0..6 {
        walks(with_zero(at, 0.0, INVERSE));
        for inverse in [INVERSE, -INVERSE] {
            let mut state = with_zero(at, -0.0, inverse);
            forged(state.clone());
            let mut walker = Walker::resume(&record, state.clone());
            walker.tell(2.0);
            state.head[10] = 2f32.to_bits().into();
            assert_eq!(walker.state(), &state);
            forged(state);
        }
    }
}

/// A walker begins without signs of zeros in origin and direction; its start, its reach and what it is told keep theirs.
#[test]
fn begun_zeros() {
    let record = record();
    let zeros = Ray::new([-0.0; 3], [-0.0; 3]).starting(-0.0);
    let mut told = record.walk(&zeros).unwrap();
    told.tell(-0.0);
    let floats = [0.0, 0.0, 0.0, 0.0, 0.0, 0.0, INVERSE, INVERSE, INVERSE, -0.0, -0.0];
    for walker in [told, record.walk(&zeros.reaching(-0.0)).unwrap()] {
        assert_eq!(walker.state().head[..11], floats.map(|x: f32| x.to_bits().into()));
    }
}

#[test]
fn done_stays_done() {
    let record = record();
    let mut walker = record.walk(&along()).unwrap();
    assert_eq!(walker.by_ref().count(), 3);
    let state = walker.state().clone();
    assert_eq!((walker.step(), walker.step()), (Ok(Step::Done), Ok(Step::Done)));
    assert_eq!(walker.state(), &state);
}

/// What is told lowers the reach of a walk alone where it is below it.
#[test]
fn tellings() {
    let far: Vec<Pane> = (0..64).map(|k| [2.0 * k as f32, 0.0, 0.0, 2.0 * k as f32 + 1.0, 1.0, 1.0]).collect();
    let record = Tree::over(&far).convert(Options::default()).unwrap();
    let reports = |told: f32| {
        let mut walker = record.walk(&along()).unwrap();
        let mut count = 0;
        while let Some(position) = walker.next() {
            position.unwrap();
            walker.tell(told);
            count += 1;
        }
        count
    };
    assert_eq!(reports(f32::NAN), 64);
    assert_eq!(reports(f32::INFINITY), 64);
    assert!(reports(2.0) < 64);
    assert_eq!(reports(-1.0), 64);
}

/// A report of three rays that meet all panes, in parts that may be spoilt, each for one cause.
struct Asked {
    record: Record,
    losses: Vec<u32>,
    rays: Vec<Ray>,
    room: usize,
}

impl Asked {
    fn new() -> Asked {
        Asked { record: record(), losses: vec![1_000_000, 0, 7], rays: vec![along(); 3], room: 3 }
    }

    fn spoilt(mut self, cause: u32) -> Asked {
        let (mut bytes, mut list) = (self.record.bytes().to_vec(), self.record.indices().to_vec());
        match cause {
            1 => bytes.truncate(79),
            2 => self.rays.resize(65_537, along()),
            4 => self.room = 2,
            12 => self.losses[0] += 1,
            9 => self.rays[2].tmax = f32::NAN,
            _ => list[1] = 3,
        }
        Asked { record: Record::from_parts(bytes, list), ..self }
    }

    /// The answer, and that a refusal leaves both totals as they were.
    fn number(&self) -> Result<u64, u32> {
        let (mut ray_totals, mut pane_totals) = (vec![7u64; self.rays.len()], vec![7u64; self.room]);
        let answer = self.record.report_into(3, &self.losses, &self.rays, &mut ray_totals, &mut pane_totals);
        let stay = ray_totals.iter().chain(&pane_totals).all(|total| *total == 7);
        assert_eq!(stay, answer.is_err());
        answer.map_err(Refusal::number)
    }
}

/// The first cause refuses a report, whatever comes after it.
#[test]
fn reports() {
    let order = [1, 2, 4, 12, 9, 10];
    assert_eq!(Asked::new().number(), Ok(3));
    for (k, first) in order.into_iter().enumerate() {
        assert_eq!(Asked::new().spoilt(first).number(), Err(first));
        for later in &order[k + 1..] {
            assert_eq!(Asked::new().spoilt(first).spoilt(*later).number(), Err(first), "{first} and {later}");
        }
    }
}

/// Losses of another length than the panes, or past the bound, first or last.
#[test]
fn losses() {
    let report = |panes, losses: &[u32]| record().report(panes, losses, &[along()]).map(|report| report.rays[0]);
    assert_eq!(report(3, &[1_000_000; 3]), Ok(3_000_000));
    for losses in [&[0; 2][..], &[0; 4], &[1_000_001, 0, 0], &[0, 0, u32::MAX]] {
        assert_eq!(report(3, losses), Err(Refusal::Losses));
    }
    assert_eq!(report(usize::MAX, &[0; 3]), Err(Refusal::Room));
}

/// A fault that the last ray alone meets refuses the report; an index past the panes that no ray meets does not.
#[test]
fn the_last_ray() {
    let mut list = record().indices().to_vec();
    let (here, last) = (along().reaching(1.5), along());
    let far = list.iter().position(|pane| *pane == 2).unwrap();
    list[far] = 3;
    let mut asked = Asked::new();
    asked.record = Record::from_parts(record().bytes().to_vec(), list);
    asked.rays = vec![here, here, last];
    assert_eq!(asked.number(), Err(10));
    asked.rays.pop();
    assert_eq!(asked.number(), Ok(2));
}

/// A damaged record is refused where a ray meets the damage.
#[test]
fn a_damaged_report() {
    let mut bytes = record().bytes().to_vec();
    bytes[12] = 200;
    let broken = Record::from_parts(bytes, record().indices().to_vec());
    assert_eq!(broken.report(3, &[1; 3], &[along()]), Err(Refusal::Record));
    assert_eq!(broken.report(3, &[1; 3], &[]).map(|report| report.panes), Ok(vec![0; 3]));
}

#[test]
fn sentences() {
    for number in 1..=14 {
        let refusal = match number {
            11 => Refusal::List { needed: 9 },
            _ => Refusal::from_number(number),
        };
        assert_eq!(refusal.number(), number);
        assert!(refusal.to_string().starts_with(&format!("refused {number}: ")));
    }
    assert!(Refusal::List { needed: 9 }.to_string().contains("9 are needed"));
}
