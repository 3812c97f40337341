//! One `box` process.

use reference::messages::{LINK_DOWN, PACKET, SWITCHED};
use reference::node::NodeId;
use std::io::{self, BufReader, Read, Write};
use std::path::Path;
use std::process::{Child, ChildStdin, ChildStdout, Command, Stdio};

/// One `box` process.
pub struct Station {
    node: NodeId,
    child: Child,
    input: Option<ChildStdin>,
    output: BufReader<ChildStdout>,
}

impl Station {
    pub fn start(program: &Path, node: NodeId, links: &[u8]) -> io::Result<Station> {
        let mut child = Command::new(program)
            .arg(node.to_string())
            .stdin(Stdio::piped())
            .stdout(Stdio::piped())
            .stderr(Stdio::null())
            .spawn()?;
        let input = child.stdin.take();
        let output = BufReader::new(child.stdout.take().expect("it is piped"));
        let mut station = Station { node, child, input, output };
        station.tell(node, links)?;
        Ok(station)
    }

    /// Gives it a frame, and answers what it writes: behind the frame goes a packet
    /// with no hop left from the node to itself, which comes back when all is written.
    pub fn tell(&mut self, from: NodeId, message: &[u8]) -> io::Result<Vec<(NodeId, Vec<u8>)>> {
        let mark = [PACKET, self.node.0, 0, 0, 0];
        let input = self.input.as_mut().expect("it is open until the process ends");
        input.write_all(&frame(from, message))?;
        input.write_all(&frame(self.node, &mark))?;
        input.flush()?;
        let mut written = Vec::new();
        loop {
            let (to, message) = self.read()?;
            if to == self.node && message == mark {
                return Ok(written);
            }
            written.push((to, message));
        }
    }

    /// The next message that it writes, and to whom. Its kind says how long it is.
    fn read(&mut self) -> io::Result<(NodeId, Vec<u8>)> {
        let mut head = [0; 2];
        self.output.read_exact(&mut head)?;
        let mut message = vec![head[1]];
        match head[1] {
            LINK_DOWN => self.more(&mut message, 2)?,
            SWITCHED => self.more(&mut message, 4)?,
            _ => {
                self.more(&mut message, 4)?;
                for _ in 0..message[4] {
                    self.more(&mut message, 1)?;
                    let size = 1 + usize::from(message[message.len() - 1]);
                    self.more(&mut message, size)?;
                }
            }
        }
        Ok((NodeId(head[0]), message))
    }

    fn more(&mut self, message: &mut Vec<u8>, size: usize) -> io::Result<()> {
        let start = message.len();
        message.resize(start + size, 0);
        self.output.read_exact(&mut message[start..])
    }
}

impl Drop for Station {
    /// At the end of its input the process ends.
    fn drop(&mut self) {
        self.input = None;
        let _ = self.child.wait();
    }
}

fn frame(from: NodeId, message: &[u8]) -> Vec<u8> {
    let mut bytes = vec![from.0];
    bytes.extend((message.len() as u16).to_be_bytes());
    bytes.extend(message);
    bytes
}
