//! The safe layer: every function with good input, and what it refuses.

mod common;

use common::{fan, refused, sample};
use tanqesha::{
    Chain, Columns, Edge, LabelId, Labels, MetricOptions, Model, Network, Refusal, StateId,
    Transition, bisim_distance, card, common_rate, distance, epsdelta, epsdelta_bisimilar,
    min_epsilon, normalise, real, transport, uniformise,
};

/// The sample, built of transitions.
fn model() -> Model {
    let transitions = [
        Transition::new(0, 70, 1, 3.0),
        Transition::new(0, 50, 2, 1.0),
        Transition::new(0, 70, 1, 0.5),
        Transition::new(1, 90, 0, 0.0),
        Transition::new(2, 50, 2, 2.0),
    ];
    Model::build(3, Some(StateId(0)), &transitions).unwrap()
}

fn accepted(columns: Columns) -> Model {
    Model::from_columns(columns).unwrap()
}

fn without_initial(model: &Model) -> Model {
    let mut columns = model.columns().clone();
    columns.initial = None;
    accepted(columns)
}

#[test]
fn refusals() {
    for (number, refusal) in (1..).zip(Refusal::ALL) {
        assert_eq!(refusal.number(), number);
        assert_eq!(Refusal::of_number(number), Some(refusal));
        let text = refusal.to_string();
        assert!(
            text.starts_with(&format!("refusal {number}: ")) && text.contains("; "),
            "{text}"
        );
    }
    assert_eq!(
        (Refusal::of_number(0), Refusal::of_number(20)),
        (None, None)
    );
}

#[test]
fn numbers() {
    assert!(real::is_valid(2.5) && !real::is_valid(-1.0));
    assert!(real::is_zero(-0.0) && !real::is_zero(f64::NAN));
    assert_eq!((real::sum(&[]), real::sum(&[0.1, 0.2])), (0.0, 0.1 + 0.2));
}

#[test]
fn labels() {
    let mut labels = Labels::new();
    assert_eq!(
        (labels.get(70), labels.resolve(LabelId(0))),
        (None, Err(Refusal::OutOfRange))
    );
    for (id, value) in (0..256).zip((0..).step_by(3)) {
        assert_eq!(labels.intern(value), Ok(LabelId(id)));
    }
    assert_eq!(labels.intern(0), Ok(LabelId(0)));
    assert_eq!(labels.intern(1), Err(Refusal::ModelSize));
    assert_eq!(
        (labels.values().len(), labels.get(765), labels.get(1)),
        (256, Some(LabelId(255)), None)
    );
    assert_eq!(labels.resolve(LabelId(255)), Ok(765));
    assert_eq!(Labels::from_values(labels.values().to_vec()), Ok(labels));
    assert_eq!(Labels::from_values(vec![5, 6, 5]), Err(Refusal::OutOfRange));
    assert_eq!(
        Labels::from_values((0..257).collect()),
        Err(Refusal::ModelSize)
    );
}

#[test]
fn models() {
    let m = model();
    assert_eq!(m.columns(), &sample());
    assert_eq!(accepted(m.clone().into_columns()), m);
    assert_eq!(
        (m.num_states(), m.num_transitions(), m.num_labels()),
        (3, 3, 3)
    );
    assert_eq!(
        (m.initial(), without_initial(&m).initial()),
        (Some(StateId(0)), None)
    );
    let edge = |source, label, target, weight| Edge {
        source: StateId(source),
        label: LabelId(label),
        target: StateId(target),
        weight,
    };
    let all = [edge(0, 0, 1, 3.5), edge(0, 1, 2, 1.0), edge(2, 1, 2, 2.0)];
    assert_eq!(m.edges().collect::<Vec<_>>(), all);
    let row = |s| m.successors(StateId(s)).unwrap().collect::<Vec<_>>();
    assert_eq!(
        (row(0), row(1), row(2)),
        (all[..2].to_vec(), vec![], all[2..].to_vec())
    );
    assert_eq!(m.successors(StateId(3)).err(), Some(Refusal::OutOfRange));
    assert_eq!(
        (m.label(LabelId(2)), m.label(LabelId(3))),
        (Ok(90), Err(Refusal::OutOfRange))
    );
    assert_eq!((m.label_id(90), m.label_id(91)), (Some(LabelId(2)), None));
}

/// Entries past the counts are no part of a model.
#[test]
fn longer_columns() {
    let mut columns = sample();
    columns.label_values.push(70);
    columns.offsets.extend([0, 9]);
    columns.edge_labels.push(7);
    columns.edge_targets.push(7);
    columns.edge_weights.push(f64::NAN);
    let m = accepted(columns);
    assert!(m.edges().eq(model().edges()));
    assert_eq!(m.successors(StateId(3)).err(), Some(Refusal::OutOfRange));
}

#[test]
fn models_are_refused() {
    for (number, columns) in refused() {
        let refusal = Model::from_columns(columns).unwrap_err();
        assert_eq!(refusal.number(), number);
    }
    let one = |weight| Model::build(2, None, &[Transition::new(0, 0, 1, weight)]).err();
    assert_eq!((one(1.0), one(-1.0)), (None, Some(Refusal::Weight)));
    assert_eq!(
        Model::build(usize::MAX, None, &[]).err(),
        Some(Refusal::ModelSize)
    );
    assert_eq!(
        Model::build(2_001, None, &[]).err(),
        Some(Refusal::ModelSize)
    );
    let many = vec![Transition::new(0, 0, 0, 1.0); 4_097];
    assert_eq!(Model::build(1, None, &many).err(), Some(Refusal::ModelSize));
    assert_eq!(
        Model::build(1, None, &many[1..]).unwrap().num_transitions(),
        1
    );
    assert_eq!(
        Model::build(0, Some(StateId(0)), &[]).err(),
        Some(Refusal::OutOfRange)
    );
    assert_eq!(Model::build(0, None, &[]).unwrap().num_states(), 0);
    let fan: Vec<_> = (1..=32).map(|t| Transition::new(0, 0, t, 1.0)).collect();
    assert_eq!(Model::build(33, None, &fan).err(), Some(Refusal::Targets));
}

#[test]
fn relations() {
    // three desks against five, all of two classes: each pair is asked for both ways
    let line = |n: u32, rate: f64| {
        let moves = (1..n).map(|s| Transition::new(s - 1, 0, s, rate));
        Model::build(n as usize, Some(StateId(0)), &moves.collect::<Vec<_>>()).unwrap()
    };
    let (left, right) = (line(3, 1.0), line(5, 1.5));
    let classes = |n: usize| vec![0; n];
    let relation = epsdelta(&left, &right, &classes(3), &classes(5), 0.5, 2.0).unwrap();
    assert_eq!((relation.left_states(), relation.right_states()), (3, 5));
    assert_eq!(relation.as_bytes().len(), 8);
    let asked: Vec<_> = (0..3)
        .flat_map(|s| (0..5).map(move |t| (StateId(s), StateId(t))))
        .filter(|&(s, t)| relation.related(s, t).unwrap())
        .collect();
    assert_eq!(relation.pairs().collect::<Vec<_>>(), asked);
    assert_eq!((&relation).into_iter().count(), asked.len());
    // the last state of each stays, the others move
    assert!(
        asked.contains(&(StateId(2), StateId(4))) && !asked.contains(&(StateId(0), StateId(4)))
    );
    assert_eq!(
        relation.related(StateId(3), StateId(0)),
        Err(Refusal::OutOfRange)
    );
    assert_eq!(
        relation.related(StateId(0), StateId(5)),
        Err(Refusal::OutOfRange)
    );
    // no states, so no pairs
    let nothing = Model::build(0, None, &[]).unwrap();
    for (left, right) in [(&nothing, &right), (&right, &nothing), (&nothing, &nothing)] {
        let relation = epsdelta(left, right, &classes(5), &classes(5), 0.0, 1.0).unwrap();
        assert_eq!(relation.pairs().next(), None);
    }
}

#[test]
fn relations_are_refused() {
    let (left, right) = (accepted(fan(&[3.0, 1.0])), accepted(fan(&[2.0, 2.0])));
    let all = |left: &Model, right: &Model, classes: &[u32], epsilon, rho| {
        [
            epsdelta(left, right, classes, classes, epsilon, rho).err(),
            epsdelta_bisimilar(left, right, classes, classes, epsilon, rho).err(),
            min_epsilon(left, right, classes, classes, rho).err(),
        ]
    };
    let classes = [0, 1, 2];
    assert_eq!(all(&left, &right, &classes, 0.25, 1.0), [None; 3]);
    assert_eq!(
        all(&left, &right, &classes[1..], 0.25, 1.0),
        [Some(Refusal::Store); 3]
    );
    assert_eq!(
        all(&left, &right, &[], 0.25, 1.0),
        [Some(Refusal::Store); 3]
    );
    assert_eq!(
        all(&left, &right, &classes, 0.25, 0.5),
        [Some(Refusal::Tolerance); 3]
    );
    let tolerance = Some(Refusal::Tolerance);
    assert_eq!(
        all(&left, &right, &classes, f64::NAN, 1.0),
        [tolerance, tolerance, None]
    );
    let absent = Some(Refusal::NoInitialState);
    let bare = without_initial(&left);
    assert_eq!(
        all(&bare, &right, &classes, 0.25, 1.0),
        [None, absent, absent]
    );
    let still = |n| Model::build(n, Some(StateId(0)), &[]).unwrap();
    let together = all(&still(1_000), &still(1_001), &[0; 1_001], 0.0, 1.0);
    assert_eq!(together, [Some(Refusal::StatesTogether); 3]);
    assert_eq!(
        all(&still(2_000), &still(2_000), &[0; 2_000], 0.0, 1.0),
        together
    );
    // M9 and M10
    let alike = |epsilon| epsdelta_bisimilar(&left, &right, &classes, &classes, epsilon, 1.0);
    assert_eq!((alike(0.25), alike(0.2)), (Ok(true), Ok(false)));
    assert_eq!(
        min_epsilon(&left, &right, &classes, &classes, 1.0),
        Ok(Some(0.25))
    );
    assert_eq!(min_epsilon(&left, &right, &classes, &[9; 3], 1.0), Ok(None));
}

#[test]
fn networks() {
    let mut net = Network::new(3).unwrap();
    assert_eq!(net.add_edge(0, 1, 0.75, 2.0), Ok(0));
    assert_eq!(net.add_edge(1, 2, 0.5, 0.0), Ok(2));
    let before = net.clone();
    assert_eq!(net.add_edge(1, 3, 0.5, 0.0), Err(Refusal::NetworkOrMasses));
    assert_eq!(net.max_flow(0, 0), Err(Refusal::NetworkOrMasses));
    assert_eq!(net, before);
    assert_eq!((net.num_nodes(), net.links().len()), (3, 4));
    assert_eq!((net.leaving(1), net.leaving(3)), (&[1, 2][..], &[][..]));
    let mut rows = net.rows();
    assert_eq!(
        (rows.check(0, 2), rows.check(2, 2)),
        (Ok(()), Err(Refusal::NetworkOrMasses))
    );
    let run = net.max_flow(0, 2).unwrap();
    assert_eq!((run.flow, run.phases, run.pushes), (0.5, 1, 1));
    assert_eq!(rows.max_flow(0, 2), Ok(run));
    assert_eq!(rows, net.rows());
    rows.starts.pop();
    assert_eq!(rows.max_flow(0, 2), Err(Refusal::NetworkOrMasses));
    assert_eq!(Network::new(67).err(), Some(Refusal::NetworkOrMasses));
    assert_eq!(Network::new(0).unwrap().leaving(0), &[]);
}

#[test]
fn transports() {
    let plan = transport(&[0.5, 0.5], &[0.25, 0.75], &[0.0, 1.0, 1.0, 0.0]).unwrap();
    let cells: Vec<_> = plan
        .cells
        .iter()
        .map(|c| (c.row, c.column, c.mass))
        .collect();
    assert_eq!(
        (plan.total, cells),
        (0.25, vec![(0, 0, 0.25), (0, 1, 0.25), (1, 1, 0.5)])
    );
    assert!(transport(&[], &[], &[]).unwrap().cells.is_empty());
    let refusal = |a: &[f64], b: &[f64], costs: &[f64]| transport(a, b, costs).err();
    assert_eq!(refusal(&[0.5, 0.5], &[1.0], &[0.0]), Some(Refusal::Store));
    assert_eq!(refusal(&[1.0; 33], &[1.0; 33], &[]), Some(Refusal::Store));
    assert_eq!(
        refusal(&[1.0; 33], &[1.0; 33], &[0.0; 1_089]),
        Some(Refusal::NetworkOrMasses)
    );
    assert_eq!(
        refusal(&[1.0], &[f64::NAN], &[0.0]),
        Some(Refusal::NetworkOrMasses)
    );
    assert_eq!(refusal(&[1.0], &[2.0], &[0.0]), Some(Refusal::Totals));
}

#[test]
fn chains() {
    let (left, right) = (accepted(fan(&[2.0])), accepted(fan(&[4.0])));
    assert_eq!(
        (common_rate(&left, &right), common_rate(&left, &model())),
        (4.0, 4.5)
    );
    let seen = [1.0, 3.0];
    let mut chain = uniformise(&left, 4.0, &seen).unwrap();
    let expected = Chain {
        states: 2,
        entries: 3,
        initial: StateId(0),
        offsets: vec![0, 2, 3],
        targets: vec![0, 1, 1],
        probabilities: vec![0.5, 0.5, 1.0],
        observations: seen.to_vec(),
    };
    assert_eq!(chain, expected);
    assert_eq!(
        chain.row(StateId(1)).unwrap().collect::<Vec<_>>(),
        [(StateId(1), 1.0)]
    );
    assert!(chain.row(StateId(2)).is_none() && chain.row(StateId(u32::MAX)).is_none());
    let mut longer = chain.clone();
    longer.offsets.push(longer.entries as u32);
    assert!(longer.row(StateId(2)).is_none());
    assert_eq!(uniformise(&left, 4.0, &seen[1..]), Err(Refusal::Store));
    assert_eq!(
        uniformise(&without_initial(&left), 4.0, &seen),
        Err(Refusal::NoInitialState)
    );
    assert_eq!(uniformise(&left, 0.0, &seen), Err(Refusal::DiscountOrRate));
    assert_eq!(
        uniformise(&left, 4.0, &[1.0, f64::NAN]),
        Err(Refusal::Observation)
    );
    // a rate below the exit rate: the chain is made, and refused where it is used
    let mut hasty = uniformise(&left, 1.0, &seen).unwrap();
    let before = hasty.clone();
    assert_eq!(normalise(&mut hasty, &mut chain), Err(Refusal::Chain));
    assert_eq!((hasty, &chain), (before, &expected));
    let mut other = uniformise(&right, 4.0, &[2.0, 5.0]).unwrap();
    assert_eq!(normalise(&mut chain, &mut other), Ok(4.0));
    assert_eq!(
        (&chain.observations, &other.observations),
        (&vec![0.0, 0.5], &vec![0.25, 1.0])
    );
    other.initial = StateId(2);
    assert_eq!(normalise(&mut chain, &mut other), Err(Refusal::OutOfRange));
    other.initial = StateId(1);
    other.observations.pop();
    assert_eq!(normalise(&mut other, &mut chain), Err(Refusal::Store));
    other.observations.push(2f64.powi(41));
    assert_eq!(normalise(&mut chain, &mut other), Err(Refusal::Observation));
}

#[test]
fn cards() {
    let worked = include_bytes!("../../../examples/worked.card");
    assert_eq!(
        card::print(worked),
        "     2     2     2\n     0     0\n     1     1\n"
    );
    let report = card::report(worked).unwrap();
    assert_eq!((report.left_states, report.right_states), (2, 2));
    assert_eq!(
        report.pairs,
        [(StateId(0), StateId(0)), (StateId(1), StateId(1))]
    );
    let refused = include_bytes!("../../../examples/refused.card");
    assert_eq!(card::report(refused), Err(Refusal::OutOfRange));
    assert_eq!(card::report(b""), Err(Refusal::CardLayout));
    let large = card::report(b"    33     0     0\n");
    assert_eq!(large, Err(Refusal::CardSize));
    let alone = "     1     0     0\n     5\n";
    let pair = |settings: &str| card::report(format!("{alone}{alone}{settings}\n").as_bytes());
    assert_eq!(pair("     0  1023"), Err(Refusal::Tolerance));
    assert_eq!(
        pair("     0  1024").unwrap().pairs,
        [(StateId(0), StateId(0))]
    );
    let no_state = "     0     0     0\n";
    assert_eq!(
        card::report(format!("{no_state}{no_state}     0  1024\n").as_bytes()),
        Err(Refusal::OutOfRange)
    );
}

/// Half a megabyte of stack is enough for every call, at the largest inputs.
#[test]
fn a_small_stack() {
    let calls = || {
        // 31 targets of each source
        let crowd = |sources: u32, count: u32| {
            let moves = (0..count).map(|k| {
                let weight = 1.0 + f64::from(k);
                Transition::new(k % sources, 0, sources + k / sources, weight)
            });
            let transitions: Vec<_> = moves.collect();
            Model::build(sources as usize + 31, Some(StateId(0)), &transitions).unwrap()
        };
        let model = crowd(133, 4_096);
        let rate = common_rate(&model, &model);
        let mut chain = uniformise(&model, rate, &[0.5; 164]).unwrap();
        normalise(&mut chain.clone(), &mut chain).unwrap();
        let options = MetricOptions {
            max_rounds: 2,
            ..MetricOptions::default()
        };
        distance(&chain, &chain, 0.5, options).unwrap();
        let at = (&model, StateId(0), &[0.5; 164][..]);
        bisim_distance(at, at, 0.5, options).unwrap();
        let (model, classes) = (crowd(8, 248), [0; 39]);
        epsdelta(&model, &model, &classes, &classes, 0.125, 4.0).unwrap();
        epsdelta_bisimilar(&model, &model, &classes, &classes, 0.125, 4.0).unwrap();
        min_epsilon(&model, &model, &classes, &classes, 4.0).unwrap();
        let mut net = Network::new(66).unwrap();
        for k in 0..1_088 {
            net.add_edge(k % 65, k % 65 + 1, 1.0, 0.0).unwrap();
        }
        net.rows().max_flow(0, 65).unwrap();
        assert_eq!(net.max_flow(0, 65).unwrap().flow, 16.0);
        transport(&[1.0; 32], &[1.0; 32], &[1.0; 1_024]).unwrap();
        let moves: String = (0..200)
            .map(|k| format!("{:>6}{:>6}{:>6}{:>6}\n", k % 7, 0, k % 32, k))
            .collect();
        let side = format!(
            "{:>6}{:>6}{:>6}\n{}{moves}",
            32,
            0,
            200,
            "     0\n".repeat(32)
        );
        card::report(format!("{side}{side}   512  4096\n").as_bytes()).unwrap();
    };
    let thread = std::thread::Builder::new().stack_size(512 * 1024);
    thread.spawn(calls).unwrap().join().unwrap();
}
