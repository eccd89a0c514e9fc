module Shapes (Shape(..), area, largest) where

import qualified Data.List as List
import Data.Maybe (fromMaybe)

-- | Two kinds of shapes.
data Shape = Circle { radius :: Double } | Rectangle Double Double
  deriving (Eq, Show)

infixr 5 +++

class Measured a where
  measure :: a -> Double
  measure _ = 0

instance Measured Shape where
  measure = area

area :: Shape -> Double
area (Circle r) = pi * r ^ 2
area (Rectangle a b) = a * b

(+++) :: [a] -> [a] -> [a]
xs +++ ys = foldr (:) ys xs

largest :: [Shape] -> Maybe Shape
largest [] = Nothing
largest shapes
  | null rest = Just first
  | otherwise = Just $ List.foldl' larger first rest
  where
    first = head shapes
    rest = tail shapes
    larger a b
      | area a >= area b = a
      | otherwise = b

report :: [Shape] -> IO ()
report shapes = do
  let count = length shapes
      half = (`div` 2) count
  putStrLn ("shapes: " ++ show count)
  case largest shapes of
    Nothing -> return ()
    Just s | area s > 100 -> putStrLn "large"
           | otherwise -> do
               putStrLn "small"
               print (subtract 1 half, (+ 2) half, [x | x <- [1 .. half], odd x])
  if count > 3
    then mapM_ print shapes
    else return ()
  fromMaybe (return ()) (lookup half [(n, print n) | n <- [1, 3 ..]])
 where
  ignored = \x -> let { y = x; z = y } in z
