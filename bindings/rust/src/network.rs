//! Networks of links, and their maximum flow.

use crate::Refusal;
use crate::sys::{self, FlowNetwork, Link};

/// What a flow run reports.
#[derive(Debug, Clone, Copy, Default, PartialEq)]
pub struct Flow {
    /// The flow from source to sink.
    pub flow: f64,
    /// How often levels were set that reach the sink.
    pub phases: usize,
    /// How many paths were pushed along.
    pub pushes: usize,
}

/// A network of at most 66 nodes and 1,088 added links. Links 2k and 2k + 1 are an added link and its reverse.
///
/// ```
/// use tanqesha::{Network, Refusal};
///
/// let mut net = Network::new(3)?;
/// let first = net.add_edge(0, 1, 0.75, 0.0)?;
/// let second = net.add_edge(1, 2, 0.5, 0.0)?;
/// let run = net.max_flow(0, 2)?;
/// assert_eq!((run.flow, run.phases, run.pushes), (0.5, 1, 1));
/// // the capacity left of each
/// assert_eq!((net.links()[first].cap, net.links()[second].cap), (0.25, 0.0));
/// // the capacity of its reverse is what went through
/// assert_eq!(net.links()[first ^ 1].cap, 0.5);
/// # Ok::<(), Refusal>(())
/// ```
#[derive(Debug, Clone, PartialEq)]
pub struct Network {
    memory: Box<FlowNetwork>,
}

impl Network {
    /// A network of so many nodes without links.
    ///
    /// # Errors
    /// [`Refusal::NetworkOrMasses`] where there are over 66.
    pub fn new(nodes: usize) -> Result<Self, Refusal> {
        let mut memory = FlowNetwork::empty();
        Refusal::check(sys::new_network(nodes, &mut memory))?;
        Ok(Self { memory })
    }

    /// Adds a link from one node to another, and its reverse of capacity 0 and the cost negated; answers its number. The
    /// network is checked afresh, which takes time for each link.
    ///
    /// # Errors
    /// [`Refusal::NetworkOrMasses`] where there is no such node, there are 1,088 added links already, the capacity is
    /// neither from 0 to 2^40 nor infinite, or the cost is not from 0 to 2^40; or where a run has left a capacity of over
    /// 2^40.
    pub fn add_edge(
        &mut self,
        from: usize,
        to: usize,
        capacity: f64,
        cost: f64,
    ) -> Result<usize, Refusal> {
        let link = self.memory.count;
        Refusal::check(sys::add_edge(&mut self.memory, from, to, capacity, cost))?;
        Ok(link)
    }

    /// The maximum flow from source to sink; the links keep the capacities that it leaves.
    ///
    /// # Errors
    /// [`Refusal::NetworkOrMasses`] where source or sink is no node, both are the same, or an infinite capacity leaves the
    /// source; or where a run before has left a capacity of over 2^40. The network is then as it was.
    pub fn max_flow(&mut self, source: usize, sink: usize) -> Result<Flow, Refusal> {
        let mut run = Flow::default();
        let (flow, phases, pushes) = (&mut run.flow, &mut run.phases, &mut run.pushes);
        let net = &mut self.memory;
        Refusal::check(sys::max_flow(net, source, sink, flow, phases, pushes))?;
        Ok(run)
    }

    /// How many nodes.
    #[must_use]
    pub fn num_nodes(&self) -> usize {
        self.memory.nodes
    }

    /// The links, reverses included, with the capacities left.
    #[must_use]
    pub fn links(&self) -> &[Link] {
        &self.memory.links[..self.memory.count]
    }

    /// The numbers of the links that leave a node, in the order of their adding; none where there is no such node.
    #[must_use]
    pub fn leaving(&self, node: usize) -> &[u32] {
        let m = &self.memory;
        if node >= m.nodes {
            return &[];
        }
        &m.list[m.starts[node] as usize..m.starts[node + 1] as usize]
    }

    /// The same network as rows of numbers.
    #[must_use]
    pub fn rows(&self) -> Rows {
        let links = self.links();
        Rows {
            nodes: self.memory.nodes,
            heads: links.iter().map(|l| l.head).collect(),
            caps: links.iter().map(|l| l.cap).collect(),
            costs: links.iter().map(|l| l.cost).collect(),
            starts: self.memory.starts.to_vec(),
            list: self.memory.list[..links.len()].to_vec(),
        }
    }
}

/// A network as rows of numbers, as they stand in memory. Nothing is assumed of it.
///
/// ```
/// use tanqesha::{Network, Refusal};
///
/// let mut net = Network::new(2)?;
/// net.add_edge(0, 1, 2.5, 0.0)?;
/// let mut rows = net.rows();
/// assert_eq!(rows.check(0, 1), Ok(()));
/// assert_eq!(rows.max_flow(0, 1)?.flow, 2.5);
/// assert_eq!(rows.caps, [0.0, 2.5]);
/// rows.list.swap(0, 1);
/// assert_eq!(rows.check(0, 1), Err(Refusal::NetworkOrMasses));
/// # Ok::<(), Refusal>(())
/// ```
#[derive(Debug, Clone, PartialEq)]
pub struct Rows {
    /// How many nodes.
    pub nodes: usize,
    /// The node that each link leads to.
    pub heads: Vec<u32>,
    /// The capacity left of each link.
    pub caps: Vec<f64>,
    /// The cost of each link.
    pub costs: Vec<f64>,
    /// Where the list of each node starts, and where the last one ends: 67 numbers, of which those past the nodes are not
    /// looked at.
    pub starts: Vec<u32>,
    /// The numbers of the links that leave each node, node after node.
    pub list: Vec<u32>,
}

impl Rows {
    /// Whether [`Rows::max_flow`] takes the network.
    ///
    /// # Errors
    /// [`Refusal::NetworkOrMasses`] where it does not.
    pub fn check(&self, source: usize, sink: usize) -> Result<(), Refusal> {
        Refusal::check(sys::network_refusal(
            &self.heads,
            &self.caps,
            &self.costs,
            &self.starts,
            &self.list,
            self.nodes,
            source,
            sink,
        ))
    }

    /// The maximum flow from source to sink; `caps` keeps the capacities that it leaves.
    ///
    /// # Errors
    /// [`Refusal::NetworkOrMasses`] where the network is not as adding its links in order gives, or source and sink are not
    /// two nodes of it. The capacities are then as they were.
    pub fn max_flow(&mut self, source: usize, sink: usize) -> Result<Flow, Refusal> {
        let mut run = Flow::default();
        Refusal::check(sys::max_flow_rows(
            &self.heads,
            &mut self.caps,
            &self.costs,
            &self.starts,
            &self.list,
            self.nodes,
            source,
            sink,
            &mut run.flow,
            &mut run.phases,
            &mut run.pushes,
        ))?;
        Ok(run)
    }
}
