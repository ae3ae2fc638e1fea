{- GHC's stm, which stores nothing: a caller is a thread, on a processor of its own where there are enough. Run as
   STM JOB CALLERS SECONDS PLACE SIZE INVARIANTS, where nothing is in PLACE.

   add        adds 1 to the counter
   transfer   moves 1 between two accounts, and tests so many invariants, each of which reads SIZE variables, the accounts first: none
              is below 0. The stm of today has no invariants (`always` is gone), so the transaction does it
   reads      reads both accounts

   At the end the values have to be what the callers counted. Then it prints how many operations there were in how many seconds. -}
module Main (main) where

import Control.Concurrent
import Control.Concurrent.STM (STM, TVar, atomically, modifyTVar', newTVarIO, readTVar, readTVarIO, throwSTM)
import Control.Monad
import Data.Word (Word64)
import GHC.Clock (getMonotonicTimeNSec)
import GHC.Conc (getNumProcessors)
import System.Environment (getArgs)
import System.Exit (die)

data Store = Store {counter, payer, payee :: !(TVar Int), invariants :: [[TVar Int]]}

deposit :: Int
deposit = 1000000000000

stride :: Int
stride = 64

-- | A store with so many invariants over so many variables.
newStore :: Int -> Int -> IO Store
newStore size count = do
  [one, two, three] <- mapM newTVarIO [0, deposit, deposit]
  others <- replicateM (size - 2) (newTVarIO 0)
  pure (Store one two three (replicate count (two : three : others)))

noneIsNegative :: [TVar Int] -> STM Bool
noneIsNegative [] = pure True
noneIsNegative (var : vars) = do
  value <- readTVar var
  if value < 0 then pure False else noneIsNegative vars

add :: Store -> STM ()
add store = modifyTVar' (counter store) (+ 1)

transfer :: Store -> STM ()
transfer store = do
  modifyTVar' (payer store) (subtract 1)
  modifyTVar' (payee store) (+ 1)
  forM_ (invariants store) $ \vars -> do
    holds <- noneIsNegative vars
    unless holds (throwSTM (userError "insolvent"))

twoReads :: Store -> STM ()
twoReads store = do
  one <- readTVar (payer store)
  two <- readTVar (payee store)
  unless (one == deposit && two == deposit) (throwSTM (userError "other values were read"))

-- | Repeats it until then, and answers how often that was.
work :: Word64 -> STM () -> IO Int
work end act = go 0
  where
    go had = do
      replicateM_ stride (atomically act)
      time <- getMonotonicTimeNSec
      let done = had + stride
      if time >= end then pure $! done else done `seq` go done

-- | What all callers come to, in so many nanoseconds. They begin together.
run :: Int -> Double -> STM () -> IO (Int, Word64)
run callers seconds act = do
  begun <- newEmptyMVar
  results <- forM [0 .. callers - 1] $ \place -> do
    result <- newEmptyMVar
    void (forkOn place (readMVar begun >>= \end -> work end act >>= putMVar result))
    pure result
  start <- getMonotonicTimeNSec
  putMVar begun (start + round (seconds * 1e9))
  had <- mapM takeMVar results
  end <- getMonotonicTimeNSec
  pure (sum had, end - start)

-- | The values at the end are those that the callers counted.
checkValues :: Store -> String -> Int -> IO ()
checkValues store job had = do
  values <- mapM readTVarIO [counter store, payer store, payee store]
  let added = if job == "add" then had else 0
      moved = if job == "transfer" then had else 0
      wanted = [added, deposit - moved, deposit + moved]
  when (values /= wanted) (die ("the values are " ++ show values ++ " and not " ++ show wanted))
  when (had == 0) (die "nothing was done")

main :: IO ()
main = do
  words' <- getArgs
  case words' of
    [job, callers, seconds, _, size, count] -> do
      processors <- getNumProcessors
      setNumCapabilities (min processors (read callers))
      store <- newStore (read size) (read count)
      act <- case job of
        "add" -> pure (add store)
        "transfer" -> pure (transfer store)
        "reads" -> pure (twoReads store)
        _ -> die ("no such job: " ++ job)
      (had, nanos) <- run (read callers) (read seconds) act
      checkValues store job had
      putStrLn (show had ++ " " ++ show (fromIntegral nanos / 1e9 :: Double))
    _ -> die "stm JOB CALLERS SECONDS PLACE SIZE INVARIANTS"
