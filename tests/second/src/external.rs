//! Running the other program: bytes to its standard input, its standard output back.

use std::io::{Read, Write};
use std::path::{Path, PathBuf};
use std::process::{Command, Stdio};
use std::sync::atomic::{AtomicBool, Ordering};
use std::sync::{Arc, Mutex};
use std::time::{Duration, Instant};

pub struct External {
    path: PathBuf,
    limit: Duration,
}

impl External {
    pub fn new(path: &str) -> Result<External, String> {
        let path = Path::new(path).to_path_buf();
        if !path.is_file() {
            return Err(format!("no such program: {}", path.display()));
        }
        Ok(External {
            path,
            limit: Duration::from_secs(60),
        })
    }

    /// What it prints for this input. A program that cannot be run, is ended by a signal,
    /// panics (status 101) or takes longer than a minute gives a text that equals no
    /// right output.
    pub fn run(&self, input: &[u8]) -> Vec<u8> {
        match self.try_run(input) {
            Ok(output) => output,
            Err(what) => format!("<<{what}>>\n").into_bytes(),
        }
    }

    fn try_run(&self, input: &[u8]) -> Result<Vec<u8>, String> {
        let mut child = Command::new(&self.path)
            .stdin(Stdio::piped())
            .stdout(Stdio::piped())
            .stderr(Stdio::null())
            .spawn()
            .map_err(|e| format!("not started: {e}"))?;
        let mut stdin = child.stdin.take().unwrap();
        let mut stdout = child.stdout.take().unwrap();
        let child = Arc::new(Mutex::new(child));
        let finished = Arc::new(AtomicBool::new(false));
        let mut output = Vec::new();
        let late = std::thread::scope(|scope| {
            // It may print while it still reads: feed it from a thread of its own.
            scope.spawn(move || {
                let _ = stdin.write_all(input);
            });
            let watch = {
                let (child, finished) = (child.clone(), finished.clone());
                let until = Instant::now() + self.limit;
                scope.spawn(move || {
                    while !finished.load(Ordering::SeqCst) {
                        if Instant::now() > until {
                            let _ = child.lock().unwrap().kill();
                            return true;
                        }
                        std::thread::park_timeout(Duration::from_millis(200));
                    }
                    false
                })
            };
            let _ = stdout.read_to_end(&mut output);
            finished.store(true, Ordering::SeqCst);
            watch.thread().unpark();
            watch.join().unwrap()
        });
        let status = child
            .lock()
            .unwrap()
            .wait()
            .map_err(|e| format!("not waited for: {e}"))?;
        if late {
            return Err("took longer than a minute".to_string());
        }
        match status.code() {
            None => Err("ended by a signal".to_string()),
            Some(101) => Err("panicked (status 101)".to_string()),
            Some(_) => Ok(output),
        }
    }
}
